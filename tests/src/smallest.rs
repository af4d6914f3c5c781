//! Smallest graphs and certificates by brute force, for orders up to 7.
//!
//! A full drawing is the number whose bits are its entries, the first pair by rows on
//! top.

use crate::arrangement::{Arrangement, all_permitted, vertex_at};
use crate::graph::{EDGE, Graph, UNKNOWN};
use crate::pairs::{pair_count, pair_number, pairs, pairs_in_order};

/// The bit of a pair in a drawing.
fn pair_bit(order: u32, i: u32, j: u32) -> u32 {
    1 << (pair_count(order) - pair_number(order, i.min(j), i.max(j)))
}

/// The graph that a drawing stands for.
pub fn graph_of(order: u32, starts: u32, drawing: u32) -> Graph {
    let mut graph = Graph { starts, ..Graph::empty(order) };
    for (i, j) in pairs(order).filter(|&(i, j)| drawing & pair_bit(order, i, j) != 0) {
        graph.put(i, j, EDGE);
    }
    graph
}

/// All block starts of an order: vertex 1 and any of the others.
pub fn all_starts(order: u32) -> impl Iterator<Item = u32> {
    (0..1 << (order - 1)).map(|others| others << 1 | 1)
}

/// The entries of a relabelled drawing and where they come from, in the order of a mode.
pub struct Copying(Vec<(u32, u32)>);

impl Copying {
    pub fn new(order: u32, mode: u32, p: &Arrangement) -> Copying {
        let bits =
            |(i, j)| (pair_bit(order, i, j), pair_bit(order, vertex_at(p, i), vertex_at(p, j)));
        Copying(pairs_in_order(mode, order).into_iter().map(bits).collect())
    }

    /// The drawing relabelled.
    pub fn copy(&self, drawing: u32) -> u32 {
        let set = self.0.iter().filter(|&&(_, from)| drawing & from != 0);
        set.fold(0, |copy, &(to, _)| copy | to)
    }

    /// Whether the drawing becomes strictly earlier: the first entry that changes was 1.
    pub fn is_earlier(&self, drawing: u32) -> bool {
        let is_set = |bit| drawing & bit != 0;
        let changed = self.0.iter().find(|&&(to, from)| is_set(to) != is_set(from));
        changed.is_some_and(|&(to, _)| is_set(to))
    }
}

/// Every way to copy a drawing that these blocks permit.
pub fn copyings(order: u32, starts: u32, mode: u32) -> Vec<Copying> {
    let blocks = Graph { starts, ..Graph::empty(order) };
    all_permitted(&blocks).iter().map(|p| Copying::new(order, mode, p)).collect()
}

/// All drawings that no permitted arrangement makes earlier.
pub fn smallest(order: u32, starts: u32, mode: u32) -> Vec<u32> {
    let copyings = copyings(order, starts, mode);
    (0..1 << pair_count(order))
        .filter(|&drawing| !copyings.iter().any(|copying| copying.is_earlier(drawing)))
        .collect()
}

/// The numbers whose bits are some of these.
fn subsets(mask: u32) -> impl Iterator<Item = u32> {
    std::iter::successors(Some(mask), move |&subset| (subset != 0).then(|| (subset - 1) & mask))
}

/// Every full drawing of a graph: its known entries, and any at the unknown ones.
pub fn full_drawings(graph: &Graph) -> impl Iterator<Item = u32> {
    let of = |value| {
        let those = pairs(graph.order).filter(|&(i, j)| graph.at(i, j) == value);
        those.fold(0, |mask, (i, j)| mask | pair_bit(graph.order, i, j))
    };
    let edges = of(EDGE);
    subsets(of(UNKNOWN)).map(move |others| edges | others)
}

/// Whether every full drawing of the graph has an earlier copy by p.
pub fn is_certificate(graph: &Graph, mode: u32, p: &Arrangement) -> bool {
    let copying = Copying::new(graph.order, mode, p);
    full_drawings(graph).all(|drawing| copying.is_earlier(drawing))
}

/// A clause as the pairs it wants drawn and the pairs it wants undrawn.
#[derive(Clone, Copy, PartialEq, Eq, Debug)]
pub struct Clause {
    wanted: u32,
    unwanted: u32,
}

impl Clause {
    pub fn new(order: u32, literals: &[i32]) -> Clause {
        let bit = |literal: i32| 1 << (pair_count(order) - literal.unsigned_abs());
        let gathered = |positive: bool| {
            literals.iter().filter(|&&l| (l > 0) == positive).fold(0, |mask, &l| mask | bit(l))
        };
        Clause { wanted: gathered(true), unwanted: gathered(false) }
    }

    /// Whether some literal is true in the drawing.
    pub fn satisfied(&self, drawing: u32) -> bool {
        drawing & self.wanted != 0 || !drawing & self.unwanted != 0
    }

    /// Every drawing of an order in which no literal is true.
    pub fn broken_by(&self, order: u32) -> impl Iterator<Item = u32> {
        let all = (1 << pair_count(order)) - 1;
        let unwanted = self.unwanted;
        subsets(all & !(self.wanted | unwanted)).map(move |others| unwanted | others)
    }
}

/// Whether every full drawing that breaks these literals has an earlier copy by p.
pub fn is_sound(order: u32, mode: u32, p: &Arrangement, literals: &[i32]) -> bool {
    let copying = Copying::new(order, mode, p);
    Clause::new(order, literals).broken_by(order).all(|drawing| copying.is_earlier(drawing))
}
