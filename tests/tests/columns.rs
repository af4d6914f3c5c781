//! Judging by columns: its smallest graphs and their first vertices, where it parts from
//! judging by rows, and why clauses of the two are not mixed.

use oracle::graph::{EDGE, Graph};
use oracle::judge::judge;
use oracle::judge_plain::{judge_plain, knowing_only};
use oracle::judges::{JUDGES, UNTOUCHED};
use oracle::pairs::{BY_COLUMNS, BY_ROWS, MODES, pair_count, pairs};
use oracle::smallest::{Clause, all_starts, copyings, graph_of, smallest};
use oracle::verdict::Verdict;

/// Whether the oracle finds no certificate.
fn is_none(graph: &Graph, mode: u32) -> bool {
    let verdict = judge(graph, mode, u32::MAX, &mut [0; 496]).verdict;
    matches!(verdict, Verdict::Nothing { .. })
}

/// The entries of a full drawing, in row order.
fn entries(graph: &Graph) -> String {
    pairs(graph.order).map(|(i, j)| if graph.at(i, j) == EDGE { '1' } else { '0' }).collect()
}

/// All copies of a drawing that these blocks permit.
fn copies(order: u32, starts: u32, drawing: u32) -> Vec<u32> {
    let all = copyings(order, starts, BY_ROWS);
    let mut copies: Vec<u32> = all.iter().map(|copying| copying.copy(drawing)).collect();
    copies.sort();
    copies.dedup();
    copies
}

// ---- smallest graphs

/// Of the copies of each drawing exactly one is judged "none", by rows and by columns.
#[test]
fn each_network_has_one_smallest_drawing() {
    for mode in MODES {
        for order in 1..=6 {
            let mut seen = vec![false; 1 << pair_count(order)];
            let mut networks = 0;
            for drawing in 0..1 << pair_count(order) {
                if seen[drawing as usize] {
                    continue;
                }
                networks += 1;
                let copies = copies(order, 1, drawing);
                copies.iter().for_each(|&copy| seen[copy as usize] = true);
                let smallest =
                    copies.iter().filter(|&&copy| is_none(&graph_of(order, 1, copy), mode));
                assert_eq!(smallest.count(), 1, "order {order} drawing {drawing:b} mode {mode}");
            }
            assert_eq!(networks, [1, 2, 4, 11, 34, 156][order as usize - 1]);
        }
    }
}

/// Up to order 5 both modes have the same smallest drawings, in all blocks. At order 6
/// they part.
#[test]
fn the_modes_have_the_same_smallest_drawings_up_to_order_5() {
    for order in 1..=5 {
        for starts in all_starts(order) {
            assert_eq!(smallest(order, starts, BY_ROWS), smallest(order, starts, BY_COLUMNS));
        }
    }
    let (by_rows, by_columns) = (smallest(6, 1, BY_ROWS), smallest(6, 1, BY_COLUMNS));
    let first_without = |these: &[u32], others: &[u32]| {
        let first = these.iter().find(|drawing| !others.contains(drawing)).expect("they part");
        entries(&graph_of(6, 1, *first))
    };
    assert_eq!(first_without(&by_rows, &by_columns), "000010110110000");
    assert_eq!(first_without(&by_columns, &by_rows), "000110011100000");
}

/// What every way of judging tells of a graph with budget enough: the verdict, the
/// certificate and the clause.
fn told(graph: &Graph, mode: u32) -> (Verdict, Vec<u8>, Vec<i32>) {
    let room = pair_count(graph.order) as usize;
    let mut literals = vec![UNTOUCHED; room];
    let judgement = judge_plain(graph, mode, u32::MAX, &mut literals);
    for judge in JUDGES {
        assert_eq!(judge(&[*graph], mode, u32::MAX, room), [(judgement, literals.clone())]);
    }
    literals.truncate(judgement.literals);
    (judgement.verdict, judgement.arrangement[..graph.order as usize].to_vec(), literals)
}

fn smaller(row: u32, column: u32, steps: u32) -> Verdict {
    Verdict::Smaller { row, column, steps }
}

#[test]
fn the_first_drawings_at_which_the_modes_part() {
    let graph = Graph::drawn(6, "000010110110000");
    assert_eq!(told(&graph, BY_ROWS).0, Verdict::Nothing { steps: 452 });
    let clause = vec![6, -7, 9, -10, 12];
    assert_eq!(told(&graph, BY_COLUMNS), (smaller(3, 4, 64), vec![2, 1, 3, 6, 4, 5], clause));

    let graph = Graph::drawn(6, "000110011100000");
    assert_eq!(told(&graph, BY_COLUMNS).0, Verdict::Nothing { steps: 220 });
    let clause = vec![2, -4, -5, 6, 11, 12];
    assert_eq!(told(&graph, BY_ROWS), (smaller(1, 6, 127), vec![3, 1, 2, 5, 4, 6], clause));
}

// ---- first vertices

/// The graph of the first vertices.
fn beginning(graph: &Graph, length: u32) -> Graph {
    let mut first = Graph::empty(length);
    pairs(length).for_each(|(i, j)| first.put(i, j, graph.at(i, j)));
    first
}

/// In one block by columns the first vertices of a smallest graph are smallest too.
#[test]
fn first_vertices_of_a_smallest_graph_are_smallest_by_columns() {
    for order in 1..=6 {
        for drawing in smallest(order, 1, BY_COLUMNS) {
            let graph = graph_of(order, 1, drawing);
            for judge in JUDGES {
                let first: Vec<Graph> = (1..=order).map(|m| beginning(&graph, m)).collect();
                for (judgement, _) in judge(&first, BY_COLUMNS, u32::MAX, 15) {
                    let verdict = judgement.verdict;
                    assert!(matches!(verdict, Verdict::Nothing { .. }), "{graph:?} {verdict:?}");
                }
            }
        }
    }
}

/// By rows they need not be: up to order 6 they are, and of order 7 this is the first
/// where they are not.
#[test]
fn first_vertices_of_a_smallest_graph_need_not_be_smallest_by_rows() {
    let keeps = |graph: &Graph| (1..graph.order).all(|m| is_none(&beginning(graph, m), BY_ROWS));
    for order in 1..=6 {
        for drawing in smallest(order, 1, BY_ROWS) {
            assert!(keeps(&graph_of(order, 1, drawing)));
        }
    }
    let graphs = (0..1 << pair_count(7)).map(|drawing| graph_of(7, 1, drawing));
    let mut smallest = graphs.filter(|graph| is_none(graph, BY_ROWS));
    let graph = smallest.find(|graph| !keeps(graph)).expect("there is one");
    assert_eq!(entries(&graph), "000001000100101101000");
    assert!((1..6).all(|m| is_none(&beginning(&graph, m), BY_ROWS)));
    let first = beginning(&graph, 6);
    assert_eq!(entries(&first), "000000001010100");
    assert!(matches!(told(&first, BY_ROWS).0, Verdict::Smaller { .. }));
    assert!(matches!(told(&graph, BY_ROWS).0, Verdict::Nothing { .. }));
}

// ---- clauses of both modes

/// A graph that knows little, its mode, and what is told of it.
type Told = (&'static str, u32, Verdict, [u8; 6], &'static [i32]);

/// In the blocks {1, 2}, {3}, {4, 5}, {6} these clauses, the first of which is one in both
/// modes, rule out all four copies of a network: a row clause one, a column clause one,
/// the first the others.
#[test]
fn clauses_of_both_modes_rule_out_a_network() {
    let swapped = [2, 1, 3, 5, 4, 6];
    let all: [Told; 4] = [
        ("uu10uuuuuuuuuuu", BY_ROWS, smaller(1, 4, 7), [1, 2, 3, 5, 4, 6], &[-3, 4]),
        ("uu10uuuuuuuuuuu", BY_COLUMNS, smaller(1, 4, 7), [1, 2, 3, 5, 4, 6], &[-3, 4]),
        ("uuu110u00uuuuuu", BY_ROWS, smaller(1, 6, 14), swapped, &[-4, -5, 6, 8, 9]),
        ("uuuuu010u10uuuu", BY_COLUMNS, smaller(3, 4, 12), swapped, &[6, -7, 8, -10, 11]),
    ];
    let mut starts = 0;
    for (entries, mode, verdict, vertices, clause) in all {
        let graph = Graph::drawn(6, entries).with_starts(&[1, 3, 4, 6]);
        starts = graph.starts;
        assert_eq!(graph, knowing_only(&graph, clause), "it knows only what the clause says");
        assert_eq!(told(&graph, mode), (verdict, vertices.to_vec(), clause.to_vec()));
    }

    let drawing = |entries| u32::from_str_radix(entries, 2).expect("entries are digits");
    let network =
        ["000100101100000", "000110100010000", "001000011010000", "001010010100000"].map(drawing);
    assert_eq!(copies(6, starts, network[0]), network);
    let broken: Vec<Vec<u32>> = all[1..]
        .iter()
        .map(|(_, _, _, _, clause)| {
            let clause = Clause::new(6, clause);
            network.into_iter().filter(|&copy| !clause.satisfied(copy)).collect()
        })
        .collect();
    assert_eq!(broken, [&network[2..], &network[1..2], &network[..1]]);
    for (mode, smallest) in [(BY_ROWS, network[0]), (BY_COLUMNS, network[1])] {
        assert!(is_none(&graph_of(6, starts, smallest), mode));
    }
}
