//! Judging as the rules define it, word by word: slow, and plainly right.

use crate::arrangement::{Arrangement, all_permitted, vertex_at};
use crate::graph::{EDGE, Graph, NON_EDGE, Refusal, UNKNOWN};
use crate::pairs::{BY_COLUMNS, MODES, pair_count, pair_number, pairs, pairs_in_order};
use crate::verdict::{Judgement, Verdict};

pub type Pair = (u32, u32);

/// Where a pair goes under the arrangement that a list of vertices begins.
fn image(beginning: &[u32], (i, j): Pair) -> Pair {
    let (x, y) = (beginning[i as usize - 1], beginning[j as usize - 1]);
    (x.min(y), x.max(y))
}

/// What a walk comes to.
#[derive(Clone, Copy, PartialEq, Eq, Debug)]
pub enum Walk {
    /// Won at this pair.
    Won(Pair),
    Lost,
    Open,
}

/// The walk along these pairs, the first ones in the order of a mode, and every pair that
/// it met other than against itself. The entries are carried along, with what they were
/// driven to.
fn walked(graph: &Graph, beginning: &[u32], on: &[Pair]) -> (Walk, Vec<Pair>) {
    let mut entries = *graph;
    let mut met = Vec::new();
    for &pair in on {
        let to = image(beginning, pair);
        if to == pair {
            continue;
        }
        met.extend([pair, to]);
        match (entries.at(pair.0, pair.1), entries.at(to.0, to.1)) {
            (EDGE, NON_EDGE) => return (Walk::Won(pair), met),
            (EDGE, EDGE) | (NON_EDGE, NON_EDGE) => {}
            (UNKNOWN, NON_EDGE) => entries.put(pair.0, pair.1, NON_EDGE),
            (EDGE, UNKNOWN) => entries.put(to.0, to.1, EDGE),
            _ => return (Walk::Lost, met),
        }
    }
    (Walk::Open, met)
}

/// The pairs on which a beginning is judged: those of its places, but by rows only the
/// ones of row 1 until it is complete.
fn pairs_judged(graph: &Graph, mode: u32, beginning: &[u32]) -> Vec<Pair> {
    let length = beginning.len() as u32;
    let every_row = mode == BY_COLUMNS || length == graph.order;
    let mut pairs = pairs_in_order(mode, graph.order);
    pairs.retain(|&(i, j)| j <= length && (i == 1 || every_row));
    pairs
}

/// How a beginning is judged.
pub fn state(graph: &Graph, mode: u32, beginning: &[u32]) -> Walk {
    walked(graph, beginning, &pairs_judged(graph, mode, beginning)).0
}

/// Every beginning, reached or not, in dictionary order.
pub fn beginnings(graph: &Graph) -> Vec<Vec<u32>> {
    fn extend(graph: &Graph, beginning: &[u32], found: &mut Vec<Vec<u32>>) {
        let place = beginning.len() as u32 + 1;
        for vertex in 1..=graph.order {
            let fits = place <= graph.order && graph.block(vertex) == graph.block(place);
            if fits && !beginning.contains(&vertex) {
                let longer = [beginning, &[vertex]].concat();
                found.push(longer.clone());
                extend(graph, &longer, found);
            }
        }
    }
    let mut found = Vec::new();
    extend(graph, &[], &mut found);
    found
}

/// Whether all its shorter beginnings are open.
fn reached(graph: &Graph, mode: u32, beginning: &[u32]) -> bool {
    (1..beginning.len()).all(|length| state(graph, mode, &beginning[..length]) == Walk::Open)
}

/// The steps needed, and whether the last of them is won.
pub fn steps_needed(graph: &Graph, mode: u32) -> (u32, bool) {
    let mut steps = 0;
    for beginning in beginnings(graph).iter().filter(|b| reached(graph, mode, b)) {
        steps += 1;
        if let Walk::Won(_) = state(graph, mode, beginning) {
            return (steps, true);
        }
    }
    (steps, false)
}

/// The places of an arrangement as a beginning of length n.
fn whole(graph: &Graph, p: &Arrangement) -> Vec<u32> {
    (1..=graph.order).map(|i| vertex_at(p, i)).collect()
}

/// The walk of an arrangement, along all pairs.
pub fn walk(graph: &Graph, mode: u32, p: &Arrangement) -> Walk {
    state(graph, mode, &whole(graph, p))
}

/// The first certificate in dictionary order, with its winning pair.
pub fn first_certificate(graph: &Graph, mode: u32) -> Option<(Arrangement, Pair)> {
    all_permitted(graph).into_iter().find_map(|p| match walk(graph, mode, &p) {
        Walk::Won(pair) => Some((p, pair)),
        Walk::Lost | Walk::Open => None,
    })
}

/// The literals that are false in the graph at the known entries that the walk met
/// other than against themselves, by rising pair number.
pub fn literals_met(graph: &Graph, mode: u32, p: &Arrangement) -> Vec<i32> {
    let all = pairs_in_order(mode, graph.order);
    let (_, met) = walked(graph, &whole(graph, p), &all);
    let literal = |&(i, j): &Pair| {
        let number = pair_number(graph.order, i, j) as i32;
        match graph.at(i, j) {
            EDGE => Some(-number),
            NON_EDGE => Some(number),
            _ => None,
        }
    };
    let mut literals: Vec<i32> = met.iter().filter_map(literal).collect();
    literals.sort_by_key(|literal| literal.abs());
    literals.dedup();
    literals
}

/// The graph that knows only what these literals say: each of them is false in it.
pub fn knowing_only(graph: &Graph, literals: &[i32]) -> Graph {
    let all: Vec<Pair> = pairs(graph.order).collect();
    let mut known = *graph;
    for &(i, j) in &all {
        known.put(i, j, UNKNOWN);
    }
    for literal in literals {
        let (i, j) = all[literal.unsigned_abs() as usize - 1];
        known.put(i, j, if *literal < 0 { EDGE } else { NON_EDGE });
    }
    known
}

/// Whether the walk is won over the graph that knows only what these literals say.
pub fn is_won_knowing(graph: &Graph, mode: u32, p: &Arrangement, literals: &[i32]) -> bool {
    matches!(walk(&knowing_only(graph, literals), mode, p), Walk::Won(_))
}

/// The clause of a certificate: what is left of the literals met where each, from the
/// highest pair number down, is dropped if the walk is still won without it.
pub fn clause(graph: &Graph, mode: u32, p: &Arrangement) -> Vec<i32> {
    let mut literals = literals_met(graph, mode, p);
    for index in (0..literals.len()).rev() {
        let mut others = literals.clone();
        others.remove(index);
        if is_won_knowing(graph, mode, p, &others) {
            literals = others;
        }
    }
    literals
}

/// Judges a graph; refusals 16, 8, 5. Only "smaller" writes to the buffer.
pub fn judge_plain(graph: &Graph, mode: u32, budget: u32, buffer: &mut [i32]) -> Judgement {
    if !MODES.contains(&mode) {
        return Judgement::without(Verdict::Refused(Refusal::plain(16)));
    }
    if !graph.well_formed() {
        return Judgement::without(Verdict::Refused(Refusal::plain(8)));
    }
    if buffer.len() < pair_count(graph.order) as usize {
        return Judgement::without(Verdict::Refused(Refusal::plain(5)));
    }
    let (steps, won) = steps_needed(graph, mode);
    let certificate = first_certificate(graph, mode);
    assert_eq!(won, certificate.is_some(), "a win and a certificate come together");
    if steps > budget {
        return Judgement::without(Verdict::Cut { steps: budget });
    }
    let Some((arrangement, (row, column))) = certificate else {
        return Judgement::without(Verdict::Nothing { steps });
    };
    let literals = clause(graph, mode, &arrangement);
    buffer[..literals.len()].copy_from_slice(&literals);
    let verdict = Verdict::Smaller { row, column, steps };
    Judgement { verdict, arrangement, literals: literals.len() }
}
