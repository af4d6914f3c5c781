//! The plain judge, the fast one and the C baseline agree.

use oracle::arrangement::{permitted, relabel};
use oracle::graph::Graph;
use oracle::judge::{judge, well_formed};
use oracle::judge_plain::{self, Walk, is_won_knowing, judge_plain, walk};
use oracle::judges::{UNTOUCHED, by_baseline};
use oracle::pairs::{MODES, pairs};
use oracle::random::Random;
use oracle::samples;
use oracle::verdict::Verdict;

/// Compares all three on one graph, mode and budget, with their whole buffers.
fn agree(graph: &Graph, mode: u32, budget: u32) {
    let mut fast = [UNTOUCHED; 20];
    let mut plain = [UNTOUCHED; 20];
    let judgement = judge(graph, mode, budget, &mut fast);
    let expected = judge_plain(graph, mode, budget, &mut plain);
    assert_eq!(judgement, expected, "{graph:?} mode {mode} budget {budget}");
    assert_eq!(fast, plain, "{graph:?}");
    same_as_baseline(graph, mode, budget);
}

fn same_as_baseline(graph: &Graph, mode: u32, budget: u32) -> u32 {
    let mut fast = [UNTOUCHED; 496];
    let judgement = judge(graph, mode, budget, &mut fast);
    assert_eq!(
        by_baseline(&[*graph], mode, budget, 496),
        [(judgement, fast.to_vec())],
        "{graph:?}"
    );
    judgement.steps()
}

/// The budgets around the steps needed, with 0, 1 and the largest.
fn agree_on_budgets(graph: &Graph, mode: u32) {
    let steps = judge(graph, mode, u32::MAX, &mut [0; 496]).steps();
    for budget in [0, 1, steps - 1, steps, steps + 1, u32::MAX] {
        agree(graph, mode, budget);
    }
}

#[test]
fn on_every_graph_up_to_order_4() {
    for mode in MODES {
        for order in 1..=4 {
            samples::every_graph(order).for_each(|graph| agree_on_budgets(&graph, mode));
        }
    }
}

#[test]
fn on_every_graph_of_order_5_in_one_block() {
    for mode in MODES {
        samples::every_graph(5)
            .filter(|graph| graph.starts == 1)
            .for_each(|graph| agree(&graph, mode, u32::MAX));
    }
}

#[test]
fn on_random_graphs_up_to_order_6() {
    let mut random = Random::new(3);
    for round in 0..500 {
        let graph = samples::graph(&mut random, 5 + round % 2);
        for mode in MODES {
            agree_on_budgets(&graph, mode);
            agree_on_budgets(&samples::settled(graph, mode, u32::MAX), mode);
        }
    }
}

#[test]
fn fast_and_baseline_on_every_order() {
    let mut random = Random::new(4);
    for round in 0..20_000 {
        let graph = samples::graph(&mut random, round % 32 + 1);
        for mode in MODES {
            let steps = same_as_baseline(&graph, mode, 2_000);
            for budget in [0, 1, steps.saturating_sub(1), steps] {
                same_as_baseline(&graph, mode, budget);
            }
            same_as_baseline(&samples::settled(graph, mode, 500), mode, 5_000);
        }
    }
}

/// On every order a certificate is permitted, its pair and its clause are those of the
/// plain definition, its literals are false, rising and single, the walk that knows only
/// them is won, and lost or open without any one, and full drawings that break the clause
/// have an earlier copy by it: those of the graph, and others.
#[test]
fn certificates_of_every_order_are_sound() {
    for mode in MODES {
        let mut random = Random::new(5);
        for round in 0..10_000 {
            let graph = samples::graph(&mut random, round % 32 + 1);
            check_certificate(&mut random, &graph, mode);
        }
    }
}

fn check_certificate(random: &mut Random, graph: &Graph, mode: u32) {
    let mut literals = [UNTOUCHED; 496];
    let judgement = judge(graph, mode, 5_000, &mut literals);
    let Verdict::Smaller { row, column, .. } = judgement.verdict else {
        assert_eq!(literals, [UNTOUCHED; 496]);
        return;
    };
    let p = &judgement.arrangement;
    assert!(permitted(graph, p));
    assert_eq!(walk(graph, mode, p), Walk::Won((row, column)));
    let clause = &literals[..judgement.literals];
    assert_eq!(clause, judge_plain::clause(graph, mode, p));
    assert!(clause.is_sorted_by(|a, b| a.abs() < b.abs()));
    assert!(is_won_knowing(graph, mode, p, clause));
    for index in 0..clause.len() {
        let others = [&clause[..index], &clause[index + 1..]].concat();
        assert!(!is_won_knowing(graph, mode, p, &others), "{graph:?} without {}", clause[index]);
    }
    let all: Vec<_> = pairs(graph.order).collect();
    let named: Vec<_> = clause.iter().map(|l| (all[l.unsigned_abs() as usize - 1], l)).collect();
    assert!(named.iter().all(|&((i, j), l)| graph.at(i, j) == u32::from(*l < 0)));
    assert!(literals[judgement.literals..].iter().all(|&literal| literal == UNTOUCHED));

    for share in [0, 30, 60, 100] {
        let mut other = samples::sprinkled(random, graph.order, share, 0);
        named.iter().for_each(|&((i, j), l)| other.put(i, j, u32::from(*l < 0)));
        for drawing in [other, samples::completed(random, *graph, share)] {
            let drawing = Graph { starts: graph.starts, ..drawing };
            assert!(relabel(&drawing, p).unwrap().compare(mode, &drawing).is_lt(), "{graph:?}");
        }
    }
}

#[test]
fn well_formed_in_words_and_with_masks() {
    let mut random = Random::new(6);
    for round in 0..100_000 {
        let graph = samples::graph(&mut random, round % 32 + 1);
        assert!(well_formed(&graph) && graph.well_formed());
        let mut damaged = graph;
        for _ in 0..random.from(1, 2) {
            damaged = samples::damaged(&mut random, damaged);
        }
        assert_eq!(well_formed(&damaged), damaged.well_formed(), "{damaged:?}");
    }
}
