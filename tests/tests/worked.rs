//! The worked graphs of the rules, through every way of judging.

use oracle::arrangement::listed;
use oracle::graph::{Graph, Refusal};
use oracle::judge_plain::judge_plain;
use oracle::judges::{JUDGES, UNTOUCHED};
use oracle::pairs::{BY_COLUMNS, BY_ROWS, MODES};
use oracle::record::{read, record};
use oracle::verdict::{Judgement, Verdict};

/// Judges in every way, all of which must agree; gives the clause too.
fn judged(graph: &Graph, mode: u32, budget: u32) -> (Judgement, Vec<i32>) {
    let mut literals = vec![UNTOUCHED; 496];
    let judgement = judge_plain(graph, mode, budget, &mut literals);
    for judge in JUDGES {
        assert_eq!(judge(&[*graph], mode, budget, 496), [(judgement, literals.clone())]);
    }
    literals.truncate(judgement.literals);
    (judgement, literals)
}

/// Checks what is told of a graph with budget enough, and that one step less is cut.
fn told(graph: &Graph, mode: u32, expected: Judgement, clause: &[i32]) {
    let steps = expected.steps();
    assert_eq!(judged(graph, mode, u32::MAX), (expected, clause.to_vec()));
    assert_eq!(judged(graph, mode, steps), (expected, clause.to_vec()));
    for budget in [steps - 1, 0] {
        let cut = Judgement::without(Verdict::Cut { steps: budget });
        assert_eq!(judged(graph, mode, budget), (cut, vec![]));
    }
}

fn smaller_in(
    mode: u32,
    graph: Graph,
    vertices: &[u32],
    (row, column): (u32, u32),
    clause: &[i32],
    steps: u32,
) {
    let verdict = Verdict::Smaller { row, column, steps };
    let arrangement = listed(vertices);
    let expected = Judgement { verdict, arrangement, literals: clause.len() };
    told(&graph, mode, expected, clause);
}

fn none_in(mode: u32, graph: Graph, steps: u32) {
    told(&graph, mode, Judgement::without(Verdict::Nothing { steps }), &[]);
}

/// The same in both modes.
fn smaller(graph: Graph, vertices: &[u32], pair: (u32, u32), clause: &[i32], steps: u32) {
    MODES.iter().for_each(|&mode| smaller_in(mode, graph, vertices, pair, clause, steps));
}

fn none(graph: Graph, steps: u32) {
    MODES.iter().for_each(|&mode| none_in(mode, graph, steps));
}

#[test]
fn order_1_and_2() {
    none(Graph::drawn(1, ""), 1);
    none(Graph::drawn(2, "u"), 4);
    assert_eq!(record(&Graph::drawn(1, "")), [0x04]);
    assert_eq!(record(&Graph::drawn(2, "u")), [0x09, 0x00]);
    assert_eq!(record(&Graph::drawn(2, "1")), [0x08, 0x80]);
}

#[test]
fn order_3_fully_drawn() {
    smaller(Graph::drawn(3, "100"), &[1, 3, 2], (1, 2), &[-1, 2], 4);
    none(Graph::drawn(3, "001"), 13);
    none(Graph::drawn(3, "011"), 11);
    none(Graph::drawn(3, "111"), 15);
    smaller(Graph::drawn(3, "010"), &[2, 1, 3], (1, 3), &[-2, 3], 7);
    smaller(Graph::drawn(3, "110"), &[2, 1, 3], (1, 3), &[-2, 3], 8);
}

#[test]
fn order_3_in_blocks() {
    none(Graph::drawn(3, "100").with_starts(&[1, 2, 3]), 3);
    let graph = Graph::drawn(3, "010").with_starts(&[1, 3]);
    smaller(graph, &[2, 1, 3], (1, 3), &[-2, 3], 6);
}

#[test]
fn with_unknowns() {
    none(Graph::drawn(3, "uuu"), 11);
    none(Graph::drawn(3, "01u"), 11);
    smaller(Graph::drawn(4, "u1uu00"), &[2, 1, 4, 3], (1, 3), &[-2, 5], 13);
    smaller(Graph::drawn(3, "1u0"), &[2, 3, 1], (1, 2), &[-1, 3], 9);
}

#[test]
fn by_driven_values() {
    for (mode, steps) in [(BY_ROWS, 6), (BY_COLUMNS, 5)] {
        let graph = Graph::drawn(4, "0u0101");
        smaller_in(mode, graph, &[1, 2, 4, 3], (2, 3), &[3, -4, 5], steps);
    }
    smaller(Graph::drawn(4, "uu0110"), &[1, 4, 2, 3], (2, 4), &[3, -4, 6], 10);
    let graph = Graph::drawn(4, "1uuu00");
    smaller_in(BY_ROWS, graph, &[2, 4, 1, 3], (1, 2), &[-1, 5], 24);
    smaller_in(BY_COLUMNS, graph, &[2, 3, 4, 1], (2, 3), &[-1, 5, 6], 21);
    none_in(BY_ROWS, Graph::drawn(4, "0u0010"), 44);
    none_in(BY_COLUMNS, Graph::drawn(4, "0u0010"), 40);
}

#[test]
fn edges_of_the_record() {
    let refused = |bytes: &[u8]| read(bytes).refusal;
    assert_eq!(read(&[0x80; 129]).refusal, None);
    assert_eq!(read(&[0x80; 129]).graph.order, 32);
    assert_eq!(refused(&[0x84; 129]), Some(Refusal { number: 2, place: 33 }));
    assert_eq!(refused(&[0x0C, 0x41]), Some(Refusal { number: 4, place: 0 }));
    assert_eq!(refused(&[0x0C, 0x70]), Some(Refusal { number: 3, place: 2 }));
    assert_eq!(refused(&[0x0C]), Some(Refusal { number: 1, place: 1 }));
}

#[test]
fn literals_of_order_32() {
    let graph = Graph::empty(32);
    for judge in JUDGES {
        for mode in MODES {
            let cut = Judgement::without(Verdict::Cut { steps: 10 });
            assert_eq!(judge(&[graph], mode, 10, 496), [(cut, vec![UNTOUCHED; 496])]);
            let refused = Judgement::without(Verdict::Refused(Refusal { number: 5, place: 0 }));
            assert_eq!(judge(&[graph], mode, 10, 495), [(refused, vec![UNTOUCHED; 495])]);
        }
    }
}
