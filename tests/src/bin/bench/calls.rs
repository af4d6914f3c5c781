//! Calls, and the contenders that make them.

use oracle::graph::Graph;
use oracle::judge::judge;
use oracle::linked::Linked;
use oracle::packing::{packed, packed_size};
use oracle::verdict::{Judgement, Verdict};
use oracle::{baseline, record};

/// A call of one of the four functions; of those that judge, with mode and budget.
pub enum Call {
    JudgeRows(Graph, u32, u32),
    JudgeRecord(Vec<u8>, u32, u32),
    RecordSize(Vec<u8>),
    WriteRecord(Graph),
}

/// What is lent to a call.
#[derive(Clone, PartialEq)]
pub struct Room {
    literals: [i32; 496],
    arrangement: [u8; 32],
    bytes: [u8; 129],
}

impl Room {
    pub const EMPTY: Room = Room { literals: [0; 496], arrangement: [0; 32], bytes: [0; 129] };
}

/// A contender makes a call and gives its answer as one number.
pub type Contender = (&'static str, fn(&Call, &mut Room) -> u64);

fn linked_answer(linked: &Linked, call: &Call, room: &mut Room) -> u64 {
    let (literals, length) = (room.literals.as_mut_ptr(), room.literals.len());
    let arrangement = room.arrangement.as_mut_ptr();
    let (out, out_length) = (room.bytes.as_mut_ptr(), room.bytes.len());
    // SAFETY: each pointer is to as many elements as the length beside it says;
    // rows and arrangements are 32.
    unsafe {
        match call {
            Call::JudgeRows(graph, mode, budget) => {
                let Graph { order, starts, .. } = *graph;
                let (edges, unknowns) = (graph.edges.as_ptr(), graph.unknowns.as_ptr());
                let judge = linked.judge_rows;
                judge(order, edges, unknowns, starts, *mode, *budget, literals, length, arrangement)
            }
            Call::JudgeRecord(bytes, mode, budget) => {
                let (record, record_length) = (bytes.as_ptr(), bytes.len());
                let judge = linked.judge_record;
                judge(record, record_length, *mode, *budget, literals, length, arrangement)
            }
            Call::RecordSize(bytes) => (linked.record_size)(bytes.as_ptr(), bytes.len()),
            Call::WriteRecord(graph) => {
                let Graph { order, starts, .. } = *graph;
                let (edges, unknowns) = (graph.edges.as_ptr(), graph.unknowns.as_ptr());
                (linked.write_record)(order, edges, unknowns, starts, out, out_length)
            }
        }
    }
}

#[cfg(feature = "library")]
fn library_answer(call: &Call, room: &mut Room) -> u64 {
    linked_answer(&oracle::archive::ARCHIVE, call, room)
}

fn c_answer(call: &Call, room: &mut Room) -> u64 {
    linked_answer(&baseline::BASELINE, call, room)
}

fn rust_judgement(graph: &Graph, mode: u32, budget: u32, room: &mut Room) -> u64 {
    let judgement = judge(graph, mode, budget, &mut room.literals);
    if matches!(judgement.verdict, Verdict::Smaller { .. }) {
        room.arrangement = judgement.arrangement;
    }
    packed(&judgement)
}

fn rust_answer(call: &Call, room: &mut Room) -> u64 {
    match call {
        Call::JudgeRows(graph, mode, budget) => rust_judgement(graph, *mode, *budget, room),
        Call::JudgeRecord(bytes, mode, budget) => {
            let reading = record::read(bytes);
            match reading.refusal {
                Some(refusal) => packed(&Judgement::without(Verdict::Refused(refusal))),
                None => rust_judgement(&reading.graph, *mode, *budget, room),
            }
        }
        Call::RecordSize(bytes) => packed_size(record::size(bytes)),
        Call::WriteRecord(graph) => packed_size(record::write(graph, &mut room.bytes)),
    }
}

pub const CONTENDERS: &[Contender] = &[
    #[cfg(feature = "library")]
    ("library", library_answer),
    ("rust", rust_answer),
    ("c", c_answer),
];

/// The answers to all calls, each with what it wrote.
fn answers(calls: &[Call], contender: &Contender) -> Vec<(u64, Room)> {
    calls
        .iter()
        .map(|call| {
            let mut room = Room::EMPTY;
            (contender.1(call, &mut room), room)
        })
        .collect()
}

/// The answers of the first contender, which the others must give too.
pub fn same_answers(calls: &[Call]) -> Vec<(u64, Room)> {
    let first = answers(calls, &CONTENDERS[0]);
    assert!(CONTENDERS.iter().all(|contender| answers(calls, contender) == first));
    first
}
