//! The record: bits most significant first, and the book of records.

use crate::graph::{EDGE, Graph, MOST, NON_EDGE, Refusal, UNKNOWN};
use crate::pairs::{pair_number, pairs};

/// A bit reader over the caller's bytes.
#[derive(Clone, Copy)]
pub struct Reader<'a> {
    pub bytes: &'a [u8],
    pub place: u64,
}

impl Reader<'_> {
    /// The next field of 1 to 6 bits; refusals 12, 1, which leave the bit place.
    pub fn field(&mut self, width: u32) -> Result<u32, Refusal> {
        let value = field(self.bytes, self.place, width)?;
        self.place += u64::from(width);
        Ok(value)
    }
}

/// The field of this width at a bit place; refusals 12, 1.
pub fn field(bytes: &[u8], place: u64, width: u32) -> Result<u32, Refusal> {
    if !(1..=6).contains(&width) {
        return Err(Refusal::plain(12));
    }
    let bits = bytes.len() as u64 * 8;
    if place > bits || bits - place < u64::from(width) {
        return Err(Refusal { number: 1, place: bytes.len() as u64 });
    }
    Ok((0..u64::from(width)).fold(0, |value, k| value << 1 | bit(bytes, place + k)))
}

fn bit(bytes: &[u8], place: u64) -> u32 {
    u32::from(bytes[(place / 8) as usize]) >> (7 - place % 8) & 1
}

/// How many bits a record of this order has before its pad.
fn record_bits(order: u32) -> u32 {
    6 + (order - 1) + order * (order - 1)
}

/// How many bytes a record of this order takes.
pub fn record_size(order: u32) -> usize {
    record_bits(order).div_ceil(8) as usize
}

/// What reading gives: on a refusal the zero graph and all the bytes.
#[derive(Clone, Copy, PartialEq, Eq, Debug)]
pub struct Reading<'a> {
    pub graph: Graph,
    pub refusal: Option<Refusal>,
    pub follows: &'a [u8],
}

/// Reads the record at the start of the bytes; refusals 1, 2, 1, 3, 4.
pub fn read(bytes: &[u8]) -> Reading<'_> {
    match graph_of(bytes) {
        Ok(graph) => Reading { graph, refusal: None, follows: &bytes[record_size(graph.order)..] },
        Err(refusal) => Reading { graph: Graph::ZERO, refusal: Some(refusal), follows: bytes },
    }
}

fn graph_of(bytes: &[u8]) -> Result<Graph, Refusal> {
    let past = Refusal { number: 1, place: bytes.len() as u64 };
    if bytes.is_empty() {
        return Err(past);
    }
    let mut reader = Reader { bytes, place: 0 };
    let order = reader.field(6)?;
    if !(1..=MOST).contains(&order) {
        return Err(Refusal { number: 2, place: u64::from(order) });
    }
    if bytes.len() < record_size(order) {
        return Err(past);
    }
    let mut graph = Graph::empty(order);
    for vertex in 2..=order {
        graph.starts |= reader.field(1)? << (vertex - 1);
    }
    for (i, j) in pairs(order) {
        match reader.field(2)? {
            0b00 => graph.put(i, j, NON_EDGE),
            0b01 => graph.put(i, j, EDGE),
            0b10 => graph.put(i, j, UNKNOWN),
            _ => {
                let place = u64::from(pair_number(order, i, j));
                return Err(Refusal { number: 3, place });
            }
        }
    }
    while !reader.place.is_multiple_of(8) {
        if reader.field(1)? == 1 {
            return Err(Refusal::plain(4));
        }
    }
    Ok(graph)
}

/// How many bytes the record at the start of the bytes takes; refusals as in reading.
pub fn size(bytes: &[u8]) -> Result<usize, Refusal> {
    graph_of(bytes).map(|graph| record_size(graph.order))
}

/// Writes a record at the start of a buffer and tells its size; refusals 8, 6.
pub fn write(graph: &Graph, buffer: &mut [u8]) -> Result<usize, Refusal> {
    if !graph.well_formed() {
        return Err(Refusal::plain(8));
    }
    let size = record_size(graph.order);
    if buffer.len() < size {
        return Err(Refusal::plain(6));
    }
    buffer[..size].fill(0);
    let mut place = 0;
    let mut append = |value: u32, width: u32| {
        for k in (0..width).rev() {
            buffer[place / 8] |= ((value >> k & 1) as u8) << (7 - place % 8);
            place += 1;
        }
    };
    append(graph.order, 6);
    for vertex in 2..=graph.order {
        append(graph.starts >> (vertex - 1) & 1, 1);
    }
    for (i, j) in pairs(graph.order) {
        append(graph.at(i, j), 2);
    }
    Ok(size)
}

/// The record of a graph that is well formed.
pub fn record(graph: &Graph) -> Vec<u8> {
    let mut bytes = vec![0; 129];
    let size = write(graph, &mut bytes).expect("the graph is well formed");
    bytes.truncate(size);
    bytes
}
