//! All that judge quickly, many graphs at once: the oracle, the C baseline, and the
//! proved library with the feature `driver`.

use crate::baseline;
use crate::call::{Call, Make};
use crate::graph::Graph;
use crate::judge::judge;
#[cfg(feature = "driver")]
use crate::library;
use crate::packing::unpacked;
use crate::random::Random;
use crate::verdict::Judgement;

/// What a buffer for literals holds before it is lent.
pub const UNTOUCHED: i32 = 7777;

/// A judgement, and the whole buffer afterwards.
pub type Judged = (Judgement, Vec<i32>);

/// A way to judge graph values in a mode with a budget, each with room for so many
/// literals.
pub type Judge = fn(&[Graph], u32, u32, usize) -> Vec<Judged>;

pub const JUDGES: &[Judge] = &[
    by_oracle,
    by_baseline,
    #[cfg(feature = "driver")]
    by_library,
];

fn by_oracle(graphs: &[Graph], mode: u32, budget: u32, room: usize) -> Vec<Judged> {
    let judged = |graph| {
        let mut literals = vec![UNTOUCHED; room];
        (judge(graph, mode, budget, &mut literals), literals)
    };
    graphs.iter().map(judged).collect()
}

pub fn by_baseline(graphs: &[Graph], mode: u32, budget: u32, room: usize) -> Vec<Judged> {
    by_calls(baseline::make, graphs, mode, budget, room)
}

#[cfg(feature = "driver")]
fn by_library(graphs: &[Graph], mode: u32, budget: u32, room: usize) -> Vec<Judged> {
    by_calls(library::make, graphs, mode, budget, room)
}

fn by_calls(make: Make, graphs: &[Graph], mode: u32, budget: u32, room: usize) -> Vec<Judged> {
    let mut random = Random::new(0);
    let call = |graph| {
        let mut call = Call::judge_rows(&mut random, graph, mode, budget, room);
        let (literals, arrangement) = call.certificate();
        literals.put_numbers(&vec![UNTOUCHED as u32; room]);
        arrangement.put_bytes(&[0; 32]);
        call
    };
    let mut calls: Vec<Call> = graphs.iter().map(call).collect();
    let answers = make(&mut calls);
    calls.iter_mut().zip(answers).map(|(call, answer)| judged(call, answer)).collect()
}

fn judged(call: &mut Call, answer: u64) -> Judged {
    let (literals, arrangement) = call.certificate();
    let vertices: Vec<u8> = arrangement.lent_bytes().collect();
    let literals = literals.lent_numbers().iter().map(|&literal| literal as i32).collect();
    (unpacked(answer, vertices.try_into().unwrap()), literals)
}
