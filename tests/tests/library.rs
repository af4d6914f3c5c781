//! The C baseline, and the proved library with the feature `driver`, against the
//! oracle: equal answers, and no byte touched that the rules don't name.
//!
//! CALLS sets how many random calls judge, and how many ask for sizes and write; a
//! million without it.

use std::env;

use oracle::graph::Graph;
use oracle::judge::judge;
use oracle::pairs::{MODES, pair_count};
use oracle::random::Random;
use oracle::record::{read, record};
use oracle::samples;
use oracle::trials::tried;
use oracle::verdict::Verdict;

fn calls() -> u32 {
    env::var("CALLS").map_or(1_000_000, |text| text.parse().expect("CALLS is a number"))
}

/// A record, sometimes with bytes after it, damaged or cut; or no record.
fn some_bytes(random: &mut Random) -> Vec<u8> {
    let graph = some_graph(random);
    let mut bytes = record(&graph);
    if random.chance(30) {
        let tail = random.below(4) as usize;
        bytes.extend(random.bytes(tail));
    }
    match random.below(8) {
        0 => {
            let at = random.below(bytes.len() as u32) as usize;
            bytes[at] ^= 1 << random.below(8);
        }
        1 => bytes.truncate(random.below(bytes.len() as u32) as usize),
        2 => {
            let length = random.below(140) as usize;
            bytes = random.bytes(length);
        }
        _ => {}
    }
    bytes
}

/// One of the two modes, seldom a number that is none.
fn some_mode(random: &mut Random) -> u32 {
    let none = [0, 3, 4, 255, 256, 257, 258, 1 << 16 | 1, 1 << 31 | 2, u32::MAX];
    if random.chance(5) { *random.pick(&none) } else { *random.pick(&MODES) }
}

/// A budget of 0, 1, around the steps needed or the largest, as long as the
/// search stays short.
fn budget(random: &mut Random, graph: &Graph, mode: u32) -> u32 {
    const SHORT: u32 = 3_000;
    let judgement = judge(graph, mode, SHORT, &mut [0; 496]);
    match judgement.verdict {
        Verdict::Cut { .. } => *random.pick(&[0, 1, SHORT - 1, SHORT]),
        Verdict::Refused(_) => *random.pick(&[0, 1, u32::MAX]),
        _ => {
            let steps = judgement.steps();
            *random.pick(&[0, 1, steps - 1, steps, steps, steps + 1, u32::MAX])
        }
    }
}

/// A literal buffer around the length that is needed, or the largest, or none.
fn literals_length(random: &mut Random, order: u32) -> usize {
    let needed = pair_count(order.clamp(1, 32)) as usize;
    let around = [needed, needed, needed, needed + 1, needed.saturating_sub(1), 0, 495, 496, 600];
    *random.pick(&around)
}

/// Small orders half of the time.
fn order(random: &mut Random) -> u32 {
    let most = *random.pick(&[6, 12, 32]);
    random.from(1, most)
}

fn some_graph(random: &mut Random) -> Graph {
    let order = order(random);
    let graph = samples::graph(random, order);
    if random.chance(30) {
        let mode = *random.pick(&MODES);
        samples::settled(graph, mode, 200)
    } else {
        graph
    }
}

/// A graph value, one time in four with damage.
fn some_value(random: &mut Random) -> Graph {
    let graph = some_graph(random);
    if random.chance(25) { samples::damaged(random, graph) } else { graph }
}

#[test]
fn every_graph_up_to_order_4() {
    tried(|trials| {
        for order in 1..=4 {
            for graph in samples::every_graph(order) {
                let needed = pair_count(order) as usize;
                for mode in MODES {
                    let steps = judge(&graph, mode, u32::MAX, &mut [0; 6]).steps();
                    for budget in [0, 1, steps - 1, steps, steps + 1, u32::MAX] {
                        trials.judge_rows(&graph, mode, budget, needed);
                        trials.judge_record(&record(&graph), mode, budget, needed);
                    }
                }
            }
        }
    });
}

#[test]
fn every_graph_of_order_5_in_one_block() {
    tried(|trials| {
        for graph in samples::every_graph(5).filter(|graph| graph.starts == 1) {
            for mode in MODES {
                trials.judge_rows(&graph, mode, u32::MAX, 10);
            }
        }
    });
}

#[test]
fn random_rows() {
    let mut random = Random::new(12);
    tried(|trials| {
        for _ in 0..calls() / 2 {
            let graph = some_value(&mut random);
            let length = literals_length(&mut random, graph.order);
            let mode = some_mode(&mut random);
            let budget = budget(&mut random, &graph, mode);
            trials.judge_rows(&graph, mode, budget, length);
        }
    });
}

#[test]
fn random_records() {
    let mut random = Random::new(13);
    tried(|trials| {
        for _ in 0..calls() / 2 {
            let bytes = some_bytes(&mut random);
            let graph = read(&bytes).graph;
            let length = literals_length(&mut random, graph.order);
            let mode = some_mode(&mut random);
            let budget = budget(&mut random, &graph, mode);
            trials.judge_record(&bytes, mode, budget, length);
        }
    });
}

#[test]
fn records_cut_at_every_byte() {
    let mut random = Random::new(14);
    tried(|trials| {
        for order in 1..=32 {
            let bytes = record(&samples::graph(&mut random, order));
            for length in 0..=bytes.len() {
                let mode = some_mode(&mut random);
                trials.judge_record(&bytes[..length], mode, 100, 496);
            }
        }
    });
}

#[test]
fn every_buffer_length_of_every_order() {
    let mut random = Random::new(15);
    tried(|trials| {
        for order in 1..=32 {
            let graph = samples::sprinkled(&mut random, order, 40, 20);
            for length in 0..=500 {
                MODES.iter().for_each(|&mode| trials.judge_rows(&graph, mode, 1_000, length));
            }
        }
    });
}

#[test]
fn every_first_byte_with_every_short_length() {
    let mut random = Random::new(16);
    tried(|trials| {
        for first in 0..=255 {
            for length in 0..140 {
                let mut bytes = vec![0; length];
                if let Some(byte) = bytes.first_mut() {
                    *byte = first;
                }
                trials.judge_record(&bytes, some_mode(&mut random), 100, 496);
            }
        }
    });
}

#[test]
fn sizes_of_random_records() {
    let mut random = Random::new(17);
    tried(|trials| {
        for _ in 0..calls() / 2 {
            trials.record_size(&some_bytes(&mut random));
        }
    });
}

#[test]
fn every_pair_of_first_bytes_has_its_size() {
    let mut random = Random::new(18);
    tried(|trials| {
        for first in 0..=u16::MAX {
            let [a, b] = first.to_be_bytes();
            let bytes = [a, b, 0, random.byte()];
            for length in 0..=4 {
                trials.record_size(&bytes[..length]);
            }
        }
    });
}

#[test]
fn random_rows_are_written() {
    let mut random = Random::new(19);
    tried(|trials| {
        for _ in 0..calls() / 2 {
            let graph = some_value(&mut random);
            let needed = record(&Graph::empty(graph.order.clamp(1, 32))).len();
            let around = [needed, needed, needed + 1, needed - 1, 0, 128, 129, 140];
            trials.write_record(&graph, *random.pick(&around));
        }
    });
}

#[test]
fn rows_are_written_to_every_buffer_length() {
    let mut random = Random::new(20);
    tried(|trials| {
        for order in 1..=32 {
            let graph = samples::graph(&mut random, order);
            for length in 0..=135 {
                trials.write_record(&graph, length);
            }
        }
    });
}

#[test]
fn every_record_up_to_order_4_is_written() {
    tried(|trials| {
        for order in 1..=4 {
            for graph in samples::every_graph(order) {
                trials.write_record(&graph, record(&graph).len());
                trials.record_size(&record(&graph));
            }
        }
    });
}
