//! Graphs to try: random ones, smallest ones, and values that are no graphs.

use crate::arrangement::relabelled;
use crate::graph::{EDGE, Graph, NON_EDGE, UNKNOWN};
use crate::judge::judge;
use crate::pairs::{pair_count, pairs};
use crate::random::Random;
use crate::smallest::all_starts;
use crate::verdict::Verdict;

/// Every graph of an order, with every choice of blocks.
pub fn every_graph(order: u32) -> impl Iterator<Item = Graph> {
    all_starts(order).flat_map(move |starts| {
        (0..3u32.pow(pair_count(order))).map(move |number| {
            let mut graph = Graph { starts, ..Graph::empty(order) };
            let mut rest = number;
            for (i, j) in pairs(order) {
                graph.put(i, j, rest % 3);
                rest /= 3;
            }
            graph
        })
    })
}

/// Random block starts, each vertex above 1 with this chance in a hundred.
pub fn starts(random: &mut Random, order: u32, percent: u32) -> u32 {
    (1..order).fold(1, |mask, v| mask | u32::from(random.chance(percent)) << v)
}

/// A graph in one block, of which so many entries in a hundred are edges, and
/// so many unknown.
pub fn sprinkled(random: &mut Random, order: u32, edges: u32, unknowns: u32) -> Graph {
    let mut graph = Graph::empty(order);
    for (i, j) in pairs(order) {
        let roll = random.below(100);
        let value = if roll < edges {
            EDGE
        } else if roll < edges + unknowns {
            UNKNOWN
        } else {
            NON_EDGE
        };
        graph.put(i, j, value);
    }
    graph
}

/// A full drawing of the graph: of its unknowns so many in a hundred become edges.
pub fn completed(random: &mut Random, mut graph: Graph, edges: u32) -> Graph {
    for (i, j) in pairs(graph.order) {
        if graph.at(i, j) == UNKNOWN {
            graph.put(i, j, if random.chance(edges) { EDGE } else { NON_EDGE });
        }
    }
    graph
}

/// A random graph of the order, with any share of edges, unknowns and starts.
pub fn graph(random: &mut Random, order: u32) -> Graph {
    let unknowns = *random.pick(&[0, 0, 5, 20, 50, 100]);
    let edges = random.below(101 - unknowns);
    let share = *random.pick(&[0, 0, 10, 30, 60]);
    Graph { starts: starts(random, order, share), ..sprinkled(random, order, edges, unknowns) }
}

/// The graph, and what its certificates of a mode make of it one after another, until the
/// budget finds none. Each makes it earlier, with unknown between 0 and 1, so this ends.
pub fn settling(graph: Graph, mode: u32, budget: u32) -> impl Iterator<Item = Graph> {
    std::iter::successors(Some(graph), move |graph| {
        let judgement = judge(graph, mode, budget, &mut [0; 496]);
        let smaller = matches!(judgement.verdict, Verdict::Smaller { .. });
        smaller.then(|| relabelled(graph, &judgement.arrangement))
    })
}

/// The last of these, for which the budget finds no certificate.
pub fn settled(graph: Graph, mode: u32, budget: u32) -> Graph {
    settling(graph, mode, budget).last().expect("the graph itself is one")
}

/// The graph with one bit of its value turned, or with another order.
pub fn damaged(random: &mut Random, mut graph: Graph) -> Graph {
    let row = random.below(32) as usize;
    let bit = 1 << random.below(32);
    match random.below(8) {
        0 | 1 => graph.edges[row] ^= bit,
        2 | 3 => graph.unknowns[row] ^= bit,
        4 => graph.starts ^= bit,
        5 => graph.starts ^= 1,
        6 => graph.order = *random.pick(&[0, 31, 32, 33, 64, u32::MAX]),
        _ => graph.order = graph.order.wrapping_add(*random.pick(&[1, u32::MAX])),
    }
    graph
}
