//! The graph value: entries, blocks, counts, and the order on full drawings.

use std::cmp::Ordering;

use crate::pairs::{pairs, pairs_in_order};

/// The largest order.
pub const MOST: u32 = 32;

/// The three values of an entry.
pub const NON_EDGE: u32 = 0;
pub const EDGE: u32 = 1;
pub const UNKNOWN: u32 = 2;

/// A refusal's number and the place given with it.
#[derive(Clone, Copy, PartialEq, Eq, Debug)]
pub struct Refusal {
    pub number: u32,
    pub place: u64,
}

impl Refusal {
    /// A refusal that gives place 0.
    pub fn plain(number: u32) -> Refusal {
        Refusal { number, place: 0 }
    }
}

/// A partially drawn graph with its blocks.
///
/// Row i stands at index i - 1, and bit j - 1 of a row is vertex j.
/// Any values may stand here: `well_formed` says which make a graph.
#[derive(Clone, Copy, PartialEq, Eq, Debug)]
pub struct Graph {
    pub order: u32,
    pub edges: [u32; 32],
    pub unknowns: [u32; 32],
    pub starts: u32,
}

/// How many entries of each kind a graph has.
#[derive(Clone, Copy, PartialEq, Eq, Debug)]
pub struct Counts {
    pub edges: u32,
    pub non_edges: u32,
    pub unknowns: u32,
}

/// Whether bit j - 1 of row i is set.
fn is_set(rows: &[u32; 32], i: u32, j: u32) -> bool {
    rows[i as usize - 1] >> (j - 1) & 1 == 1
}

impl Graph {
    /// The graph of order 0, all zeros: what a refused reading gives.
    pub const ZERO: Graph = Graph { order: 0, edges: [0; 32], unknowns: [0; 32], starts: 0 };

    /// The graph without edges or unknowns in one block.
    pub fn empty(order: u32) -> Graph {
        Graph { order, starts: 1, ..Graph::ZERO }
    }

    /// The graph whose entries in row order are these letters: 0, 1 or u.
    pub fn drawn(order: u32, entries: &str) -> Graph {
        let mut graph = Graph::empty(order);
        assert_eq!(entries.len(), pairs(order).count());
        for ((i, j), letter) in pairs(order).zip(entries.chars()) {
            match letter {
                '0' => graph.put(i, j, NON_EDGE),
                '1' => graph.put(i, j, EDGE),
                'u' => graph.put(i, j, UNKNOWN),
                other => panic!("no entry is written {other}"),
            }
        }
        graph
    }

    /// The same graph with a block started at each of these vertices.
    pub fn with_starts(mut self, starts: &[u32]) -> Graph {
        self.starts = starts.iter().fold(0, |mask, vertex| mask | 1 << (vertex - 1));
        self
    }

    /// Whether the value is a graph, clause by clause as the rules say it.
    pub fn well_formed(&self) -> bool {
        let order_in_range = (1..=MOST).contains(&self.order);
        let all = || (1..=MOST).flat_map(|i| (1..=MOST).map(move |j| (i, j)));
        let symmetric = all().all(|(i, j)| {
            is_set(&self.edges, i, j) == is_set(&self.edges, j, i)
                && is_set(&self.unknowns, i, j) == is_set(&self.unknowns, j, i)
        });
        let nothing_outside = all().all(|(i, j)| {
            let inside = i != j && i <= self.order && j <= self.order;
            inside || !is_set(&self.edges, i, j) && !is_set(&self.unknowns, i, j)
        });
        let none_is_both =
            all().all(|(i, j)| !(is_set(&self.edges, i, j) && is_set(&self.unknowns, i, j)));
        let vertex_1_starts = self.starts & 1 == 1;
        let no_start_past = (1..=MOST).all(|v| v <= self.order || self.starts >> (v - 1) & 1 == 0);
        order_in_range
            && symmetric
            && nothing_outside
            && none_is_both
            && vertex_1_starts
            && no_start_past
    }

    /// Refusal 8 unless the value is a graph.
    fn checked(&self) -> Result<(), Refusal> {
        if self.well_formed() { Ok(()) } else { Err(Refusal::plain(8)) }
    }

    /// Refusal 7 unless (i, j) are two different vertices.
    fn checked_pair(&self, i: u32, j: u32) -> Result<(), Refusal> {
        let is_vertex = |v| (1..=self.order).contains(&v);
        if is_vertex(i) && is_vertex(j) && i != j { Ok(()) } else { Err(Refusal::plain(7)) }
    }

    /// The entry at two different vertices of a graph that is well formed.
    pub fn at(&self, i: u32, j: u32) -> u32 {
        if is_set(&self.edges, i, j) {
            EDGE
        } else if is_set(&self.unknowns, i, j) {
            UNKNOWN
        } else {
            NON_EDGE
        }
    }

    /// Puts a value at both halves of an entry.
    pub fn put(&mut self, i: u32, j: u32, value: u32) {
        for (row, column) in [(i, j), (j, i)] {
            let (row, bit) = (row as usize - 1, 1 << (column - 1));
            self.edges[row] &= !bit;
            self.unknowns[row] &= !bit;
            match value {
                EDGE => self.edges[row] |= bit,
                UNKNOWN => self.unknowns[row] |= bit,
                _ => {}
            }
        }
    }

    /// The entry at (i, j); refusals 8, 7.
    pub fn entry(&self, i: u32, j: u32) -> Result<u32, Refusal> {
        self.checked()?;
        self.checked_pair(i, j)?;
        Ok(self.at(i, j))
    }

    /// The graph with one entry changed; refusals 8, 7, 9 give it back as it came.
    pub fn set(mut self, i: u32, j: u32, value: u32) -> (Graph, Option<Refusal>) {
        let refusal = self
            .checked()
            .and_then(|()| self.checked_pair(i, j))
            .and_then(|()| if value <= 2 { Ok(()) } else { Err(Refusal::plain(9)) })
            .err();
        if refusal.is_none() {
            self.put(i, j, value);
        }
        (self, refusal)
    }

    /// How many edges, non-edges and unknowns there are; refusal 8.
    pub fn counts(&self) -> Result<Counts, Refusal> {
        self.checked()?;
        let of = |value| pairs(self.order).filter(|&(i, j)| self.at(i, j) == value).count() as u32;
        Ok(Counts { edges: of(EDGE), non_edges: of(NON_EDGE), unknowns: of(UNKNOWN) })
    }

    /// A vertex's edge count; refusals 8, 7.
    pub fn degree(&self, vertex: u32) -> Result<u32, Refusal> {
        self.checked()?;
        if !(1..=self.order).contains(&vertex) {
            return Err(Refusal::plain(7));
        }
        let neighbours = (1..=self.order).filter(|&j| j != vertex && self.at(vertex, j) == EDGE);
        Ok(neighbours.count() as u32)
    }

    /// The start of the block in which a vertex lies.
    pub fn block(&self, vertex: u32) -> u32 {
        (1..=vertex)
            .rev()
            .find(|v| self.starts >> (v - 1) & 1 == 1)
            .expect("vertex 1 starts a block")
    }

    /// Whether no entry is unknown.
    pub fn fully_drawn(&self) -> bool {
        self.unknowns == [0; 32]
    }

    /// Of two full drawings of equal order, the earlier has 0 at the first pair, in the
    /// order of a mode, where they differ.
    pub fn compare(&self, mode: u32, other: &Graph) -> Ordering {
        pairs_in_order(mode, self.order)
            .into_iter()
            .map(|(i, j)| self.at(i, j).cmp(&other.at(i, j)))
            .find(|difference| difference.is_ne())
            .unwrap_or(Ordering::Equal)
    }

    /// Whether every two vertices are joined by a path of edges.
    pub fn connected(&self) -> bool {
        let mut found = 1u32;
        loop {
            let reached = (0..self.order as usize)
                .filter(|&v| found >> v & 1 == 1)
                .fold(found, |mask, v| mask | self.edges[v]);
            if reached == found {
                return found.count_ones() == self.order;
            }
            found = reached;
        }
    }
}
