//! What the answers mean, against brute force on small orders.

use oracle::arrangement::{all_permitted, compose, invert, relabel};
use oracle::call::BATCH;
use oracle::graph::Graph;
use oracle::judges::{JUDGES, Judge};
use oracle::pairs::{BY_COLUMNS, BY_ROWS, MODES, pair_count};
use oracle::random::Random;
use oracle::samples;
use oracle::smallest::{Clause, all_starts, graph_of, smallest};
use oracle::verdict::Verdict;

/// The full drawings that are judged "none".
fn judged_none(judge: Judge, order: u32, starts: u32, mode: u32) -> Vec<u32> {
    let drawings = 0..1 << pair_count(order);
    let graphs: Vec<Graph> = drawings.map(|drawing| graph_of(order, starts, drawing)).collect();
    let judged = judge(&graphs, mode, u32::MAX, 15);
    let is_none = |verdict| matches!(verdict, Verdict::Nothing { .. });
    (0..).zip(judged).filter(|(_, judged)| is_none(judged.0.verdict)).map(|(d, _)| d).collect()
}

/// How many full drawings are judged "none" in one block, and how many of them
/// are connected.
fn census_of(judge: Judge, order: u32, mode: u32) -> (usize, usize) {
    let none = judged_none(judge, order, 1, mode);
    let connected = none.iter().filter(|&&drawing| graph_of(order, 1, drawing).connected());
    (none.len(), connected.count())
}

#[test]
fn census() {
    for mode in MODES {
        for &judge in JUDGES {
            let counts: Vec<_> = (1..=6).map(|order| census_of(judge, order, mode)).collect();
            assert_eq!(counts, [(1, 1), (2, 1), (4, 2), (11, 6), (34, 21), (156, 112)]);
        }
    }
}

#[test]
fn none_is_smallest_on_full_drawings() {
    for mode in MODES {
        for order in 1..=6 {
            for starts in all_starts(order) {
                let smallest = smallest(order, starts, mode);
                for &judge in JUDGES {
                    assert_eq!(judged_none(judge, order, starts, mode), smallest);
                }
            }
        }
    }
}

/// Brute force on numbers is the order and the relabelling of the graphs.
#[test]
fn drawings_are_ordered_as_graphs() {
    for order in 1..=4 {
        for starts in all_starts(order) {
            let graph = |drawing| graph_of(order, starts, drawing);
            for mode in MODES {
                let has_no_earlier_copy = |&drawing: &u32| {
                    let here = graph(drawing);
                    let copies = all_permitted(&here);
                    copies.iter().all(|p| relabel(&here, p).unwrap().compare(mode, &here).is_ge())
                };
                let by_graphs: Vec<u32> =
                    (0..1 << pair_count(order)).filter(has_no_earlier_copy).collect();
                assert_eq!(by_graphs, smallest(order, starts, mode));
            }
            for first in 0..1 << pair_count(order) {
                for second in 0..1 << pair_count(order) {
                    let (first_graph, second_graph) = (graph(first), graph(second));
                    let compared = first_graph.compare(BY_ROWS, &second_graph);
                    assert_eq!(compared, first.cmp(&second));
                    assert_eq!(compared, rows(&first_graph).cmp(&rows(&second_graph)));
                    let compared = first_graph.compare(BY_COLUMNS, &second_graph);
                    assert_eq!(compared, above(&first_graph).cmp(&above(&second_graph)));
                }
            }
        }
    }
}

/// The entries above the diagonal, column after column.
fn above(graph: &Graph) -> Vec<u32> {
    (2..=graph.order).flat_map(|j| (1..j).map(move |i| graph.at(i, j))).collect()
}

/// All entries of the matrix, row after row.
fn rows(graph: &Graph) -> Vec<u32> {
    let order = graph.order;
    let entry = |i, j| if i == j { 0 } else { graph.at(i, j) };
    (1..=order).flat_map(|i| (1..=order).map(move |j| entry(i, j))).collect()
}

/// The smallest graphs for every choice of blocks, by their starts.
fn all_smallest(order: u32, mode: u32) -> Vec<Vec<u32>> {
    all_starts(order).map(|starts| smallest(order, starts, mode)).collect()
}

/// Checks every clause that each judge writes in a mode for these graphs of an order up to
/// 6 against every smallest graph of that mode.
fn check_clauses(mut graphs: impl Iterator<Item = Graph>, mode: u32, all_smallest: &[Vec<u32>]) {
    loop {
        let batch: Vec<Graph> = graphs.by_ref().take(BATCH).collect();
        if batch.is_empty() {
            return;
        }
        for judge in JUDGES {
            let judged = judge(&batch, mode, u32::MAX, 15);
            for (graph, (judgement, literals)) in batch.iter().zip(judged) {
                if judgement.literals > 0 {
                    let clause = Clause::new(graph.order, &literals[..judgement.literals]);
                    let smallest = &all_smallest[graph.starts as usize >> 1];
                    assert!(smallest.iter().all(|&drawing| clause.satisfied(drawing)), "{graph:?}");
                }
            }
        }
    }
}

#[test]
fn every_clause_up_to_order_5_is_satisfied_by_every_smallest_graph() {
    for mode in MODES {
        for order in 1..=5 {
            check_clauses(samples::every_graph(order), mode, &all_smallest(order, mode));
        }
    }
}

#[test]
fn clauses_of_order_6_are_satisfied_by_every_smallest_graph() {
    for mode in MODES {
        let mut random = Random::new(7);
        let graphs = (0..50_000).flat_map(|_| {
            let graph = samples::graph(&mut random, 6);
            [graph, samples::settled(graph, mode, 20)]
        });
        check_clauses(graphs, mode, &all_smallest(6, mode));
    }
}

#[test]
fn composing_and_inverting_are_as_relabelling_says() {
    let mut random = Random::new(8);
    for round in 0..300 {
        let order = round % 4 + 1;
        let graph = samples::graph(&mut random, order);
        let all = all_permitted(&graph);
        let (p, q) = (random.pick(&all), random.pick(&all));
        let twice = relabel(&relabel(&graph, p).unwrap(), q).unwrap();
        assert_eq!(relabel(&graph, &compose(order, p, q).unwrap()), Ok(twice));
        let back = invert(order, p).unwrap();
        assert_eq!(relabel(&relabel(&graph, p).unwrap(), &back), Ok(graph));
    }
}
