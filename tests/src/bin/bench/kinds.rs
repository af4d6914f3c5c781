//! The kinds of calls that are measured. Where graphs are chosen by how they are judged,
//! a mode has its own.

use std::iter;

use oracle::graph::Graph;
use oracle::judge::judge;
use oracle::pairs::{BY_COLUMNS, BY_ROWS, MODES};
use oracle::random::Random;
use oracle::verdict::Verdict;
use oracle::{record, samples};

use crate::calls::Call;

/// Half-drawn graphs in one block, as a solver has them early: soon decided.
fn easy(order: u32, mode: u32) -> Vec<Call> {
    let mut random = Random::new(100 + u64::from(order));
    let mut graph = || samples::sprinkled(&mut random, order, 35, 30);
    (0..64).map(|_| Call::JudgeRows(graph(), mode, u32::MAX)).collect()
}

/// Graphs of every share of edges, unknowns and starts, of which each second one
/// was made smaller first; judged with few steps.
fn short(order: u32, mode: u32) -> Vec<Call> {
    const FEW: u32 = 300;
    let mixture = mixture(400 + u64::from(order), order);
    let later =
        |index, graph| if index % 2 == 0 { graph } else { samples::settled(graph, mode, FEW) };
    let graphs = mixture.into_iter().enumerate().map(|(index, graph)| later(index, graph));
    graphs.map(|graph| Call::JudgeRows(graph, mode, FEW)).collect()
}

/// Endless graphs with few unknowns, in blocks that keep the search of a mode finite. By
/// columns one block does up to order 24.
fn in_blocks(order: u32, mode: u32) -> impl Iterator<Item = Graph> {
    let mut random = Random::new(200 + u64::from(order));
    let width = match (mode, order) {
        (BY_COLUMNS, 32) => 16,
        (BY_COLUMNS, _) => 32,
        (_, 8 | 16) => 8,
        (_, 24) => 6,
        _ => 4,
    };
    let starts = (0..order).step_by(width).fold(0, |mask, v| mask | 1 << v);
    iter::repeat_with(move || Graph { starts, ..samples::sprinkled(&mut random, order, 45, 2) })
}

/// The budget with which hard graphs are searched for.
const HARD: u32 = 1_000_000;

/// The fewest steps of a hard graph.
fn many(order: u32) -> u32 {
    if order == 8 { 500 } else { 20_000 }
}

/// Smallest graphs with few unknowns.
fn hard(order: u32, mode: u32) -> Vec<Call> {
    let is_hard = |graph: &Graph| {
        let verdict = judge(graph, mode, HARD, &mut [0; 496]).verdict;
        matches!(verdict, Verdict::Nothing { steps } if steps >= many(order))
    };
    let settled = in_blocks(order, mode).map(|graph| samples::settled(graph, mode, HARD));
    settled.filter(is_hard).take(4).map(|graph| Call::JudgeRows(graph, mode, u32::MAX)).collect()
}

/// Graphs on the way to these, whose certificates are found late.
fn late(order: u32, mode: u32) -> Vec<Call> {
    let is_late = |graph: &Graph| {
        let verdict = judge(graph, mode, HARD, &mut [0; 496]).verdict;
        matches!(verdict, Verdict::Smaller { steps, .. } if steps >= many(order))
    };
    let on_the_way = in_blocks(order, mode).flat_map(|graph| samples::settling(graph, mode, HARD));
    let late = on_the_way.filter(is_late).take(16);
    late.map(|graph| Call::JudgeRows(graph, mode, u32::MAX)).collect()
}

/// Graphs in one block on which the budget ends the search.
fn cut(order: u32, mode: u32) -> Vec<Call> {
    let mut random = Random::new(300 + u64::from(order));
    let budget = match (mode, order) {
        (_, 8) => 500,
        (BY_COLUMNS, 16) => 10_000,
        _ => 100_000,
    };
    let mut calls = Vec::new();
    while calls.len() < 4 {
        let graph = samples::sprinkled(&mut random, order, 45, 2);
        let graph = samples::settled(graph, mode, budget);
        let verdict = judge(&graph, mode, budget, &mut [0; 496]).verdict;
        if matches!(verdict, Verdict::Cut { .. }) {
            calls.push(Call::JudgeRows(graph, mode, budget));
        }
    }
    calls
}

/// The graph without edges: every walk goes to its end.
fn bare(order: u32, mode: u32) -> Vec<Call> {
    vec![Call::JudgeRows(Graph::empty(order), mode, 100_000)]
}

fn mixture(seed: u64, order: u32) -> Vec<Graph> {
    let mut random = Random::new(seed);
    (0..64).map(|_| samples::graph(&mut random, order)).collect()
}

fn records(order: u32) -> impl Iterator<Item = Vec<u8>> {
    mixture(500 + u64::from(order), order).into_iter().map(|graph| record::record(&graph))
}

/// Records that are read, and judged with one step.
fn read(order: u32, mode: u32) -> Vec<Call> {
    records(order).map(|bytes| Call::JudgeRecord(bytes, mode, 1)).collect()
}

fn size(order: u32, _: u32) -> Vec<Call> {
    records(order).map(Call::RecordSize).collect()
}

fn write(order: u32, _: u32) -> Vec<Call> {
    mixture(500 + u64::from(order), order).into_iter().map(Call::WriteRecord).collect()
}

/// A kind of calls: its name, the modes in which it is measured, and the calls of an order
/// and a mode.
pub type Kind = (&'static str, &'static [u32], fn(u32, u32) -> Vec<Call>);

pub const KINDS: &[Kind] = &[
    ("easy", &MODES, easy),
    ("short", &MODES, short),
    ("hard", &MODES, hard),
    ("cut", &MODES, cut),
    ("bare", &MODES, bare),
    ("read", &[BY_ROWS], read),
    ("size", &[BY_ROWS], size),
    ("write", &[BY_ROWS], write),
];

/// The kinds of the table of clauses. No smallest graph has one, so of the hard ones it
/// has those on the way.
pub const WITH_CLAUSES: &[Kind] =
    &[("easy", &MODES, easy), ("short", &MODES, short), ("hard", &MODES, late)];

pub const ORDERS: [u32; 4] = [8, 16, 24, 32];
