//! Calls of the functions of include/cafruzek.h, with all memory that they lend.

use crate::graph::Graph;
use crate::random::Random;

/// Memory of which a part is lent; what stands around that part guards it.
#[derive(Clone, PartialEq, Eq, Debug)]
pub struct Area {
    /// All of it, aligned for numbers of 32 bits.
    pub words: Vec<u32>,
    /// The byte at which the lent part starts.
    pub start: usize,
    /// How many elements are lent.
    pub length: usize,
}

impl Area {
    /// Random bits, of which so many elements of this size are lent.
    fn new(random: &mut Random, length: usize, size: usize) -> Area {
        let start = random.from(32, 40) as usize * size;
        let words = (start + (length + 40) * size).div_ceil(4);
        Area { words: (0..words).map(|_| random.word()).collect(), start, length }
    }

    fn bytes(random: &mut Random, bytes: &[u8]) -> Area {
        let mut area = Area::new(random, bytes.len(), 1);
        area.put_bytes(bytes);
        area
    }

    fn numbers(random: &mut Random, numbers: &[u32]) -> Area {
        let mut area = Area::new(random, numbers.len(), 4);
        area.put_numbers(numbers);
        area
    }

    /// Writes bytes at the start of the lent part.
    pub fn put_bytes(&mut self, bytes: &[u8]) {
        for (place, &byte) in (self.start..).zip(bytes) {
            let mut word = self.words[place / 4].to_ne_bytes();
            word[place % 4] = byte;
            self.words[place / 4] = u32::from_ne_bytes(word);
        }
    }

    /// Writes numbers at the start of the lent part.
    pub fn put_numbers(&mut self, numbers: &[u32]) {
        self.words[self.start / 4..][..numbers.len()].copy_from_slice(numbers);
    }

    /// The lent bytes.
    pub fn lent_bytes(&self) -> impl Iterator<Item = u8> {
        let byte = |place: usize| self.words[place / 4].to_ne_bytes()[place % 4];
        (self.start..self.start + self.length).map(byte)
    }

    /// The lent numbers.
    pub fn lent_numbers(&self) -> &[u32] {
        &self.words[self.start / 4..][..self.length]
    }

    /// Where the lent part is.
    pub fn lend(&mut self) -> *mut u8 {
        self.words.as_mut_ptr().cast::<u8>().wrapping_add(self.start)
    }
}

#[derive(Clone, Copy, PartialEq, Eq, Debug)]
pub enum Function {
    JudgeRecord,
    JudgeRows,
    RecordSize,
    WriteRecord,
}

/// A call: its numbers, and what it lends in the order of the header.
#[derive(Clone, Debug)]
pub struct Call {
    pub function: Function,
    pub order: u32,
    pub starts: u32,
    pub mode: u32,
    pub budget: u32,
    pub areas: Vec<Area>,
}

/// How many calls are made at once where there are many.
pub const BATCH: usize = 4096;

/// A way to make calls: gives their answers, and leaves in the areas what was
/// written there.
pub type Make = fn(&mut [Call]) -> Vec<u64>;

impl Call {
    /// A call with these areas whose numbers are all 0.
    fn lending(function: Function, areas: Vec<Area>) -> Call {
        Call { function, order: 0, starts: 0, mode: 0, budget: 0, areas }
    }

    /// Judges the record at the start of the bytes, with room for so many literals.
    pub fn judge_record(
        random: &mut Random,
        bytes: &[u8],
        mode: u32,
        budget: u32,
        literals: usize,
    ) -> Call {
        let areas = vec![
            Area::bytes(random, bytes),
            Area::new(random, literals, 4),
            Area::new(random, 32, 1),
        ];
        Call { mode, budget, ..Call::lending(Function::JudgeRecord, areas) }
    }

    /// Judges a graph value, with room for so many literals.
    pub fn judge_rows(
        random: &mut Random,
        graph: &Graph,
        mode: u32,
        budget: u32,
        literals: usize,
    ) -> Call {
        let areas = vec![
            Area::numbers(random, &graph.edges),
            Area::numbers(random, &graph.unknowns),
            Area::new(random, literals, 4),
            Area::new(random, 32, 1),
        ];
        let Graph { order, starts, .. } = *graph;
        Call { order, starts, mode, budget, ..Call::lending(Function::JudgeRows, areas) }
    }

    /// Tells the size of the record at the start of the bytes.
    pub fn record_size(random: &mut Random, bytes: &[u8]) -> Call {
        Call::lending(Function::RecordSize, vec![Area::bytes(random, bytes)])
    }

    /// Writes the record of a graph value to a buffer of so many bytes.
    pub fn write_record(random: &mut Random, graph: &Graph, length: usize) -> Call {
        let areas = vec![
            Area::numbers(random, &graph.edges),
            Area::numbers(random, &graph.unknowns),
            Area::new(random, length, 1),
        ];
        let Graph { order, starts, .. } = *graph;
        Call { order, starts, ..Call::lending(Function::WriteRecord, areas) }
    }

    /// The literals and the arrangement that judging lends.
    pub fn certificate(&mut self) -> (&mut Area, &mut Area) {
        match &mut self.areas[..] {
            [.., literals, arrangement] => (literals, arrangement),
            _ => panic!("the call judges"),
        }
    }
}
