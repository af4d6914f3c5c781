//! What a certificate is: every full drawing of the graph has an earlier copy by it.
//! The walk and all that judge against brute force over the full drawings.

use oracle::arrangement::{Arrangement, all_permitted, listed, relabel, vertex_at};
use oracle::call::BATCH;
use oracle::graph::{EDGE, Graph, NON_EDGE};
use oracle::judge_plain::{Pair, Walk, beginnings, clause, judge_plain, literals_met, state, walk};
use oracle::judges::{JUDGES, Judged, UNTOUCHED};
use oracle::pairs::{
    BY_COLUMNS, BY_ROWS, MODES, is_before, pair_count, pair_number, pairs, pairs_in_order,
};
use oracle::random::Random;
use oracle::samples;
use oracle::smallest::{all_starts, graph_of, is_certificate};
use oracle::verdict::Verdict;

fn is_won(graph: &Graph, mode: u32, p: &Arrangement) -> bool {
    matches!(walk(graph, mode, p), Walk::Won(_))
}

/// Checks that the walk of an arrangement is won exactly if it is a certificate.
fn check_walk(graph: &Graph, mode: u32, p: &Arrangement) {
    let expected = is_certificate(graph, mode, p);
    assert_eq!(is_won(graph, mode, p), expected, "{graph:?} mode {mode} {p:?}");
}

// ---- the walk of an arrangement

#[test]
fn a_walk_is_won_exactly_for_a_certificate_up_to_order_4() {
    for order in 1..=4 {
        for graph in samples::every_graph(order) {
            for p in all_permitted(&graph) {
                MODES.iter().for_each(|&mode| check_walk(&graph, mode, &p));
            }
        }
    }
}

#[test]
fn a_walk_is_won_exactly_for_a_certificate_on_random_graphs_up_to_order_7() {
    let mut random = Random::new(31);
    for round in 0..900 {
        let graph = samples::graph(&mut random, 5 + round % 3);
        let settled = MODES.map(|mode| samples::settled(graph, mode, u32::MAX));
        for graph in [graph, settled[0], settled[1]] {
            let mut all = all_permitted(&graph);
            // Those that move few vertices come to the later pairs.
            all.sort_by_key(|p| (1..=graph.order).filter(|&i| vertex_at(p, i) != i).count());
            let few = all.len().min(150);
            let others: Vec<Arrangement> = (0..150).map(|_| *random.pick(&all)).collect();
            for p in all[..few].iter().chain(&others) {
                MODES.iter().for_each(|&mode| check_walk(&graph, mode, p));
            }
        }
    }
}

/// Whether the first pair with 1 against 0 wins with the entries as they are drawn: at
/// each pair before it a is 1, or b is 0, or the pair is its own image.
fn is_won_as_drawn(graph: &Graph, mode: u32, p: &Arrangement) -> bool {
    for (i, j) in pairs_in_order(mode, graph.order) {
        let (x, y) = (vertex_at(p, i), vertex_at(p, j));
        match (graph.at(i, j), graph.at(x, y)) {
            _ if (x.min(y), x.max(y)) == (i, j) => {}
            (EDGE, NON_EDGE) => return true,
            (EDGE, _) | (_, NON_EDGE) => {}
            _ => return false,
        }
    }
    false
}

/// No value need be driven for a win, and some are won by driven values alone.
#[test]
fn what_is_won_as_drawn_is_won() {
    let graph = Graph::drawn(3, "1u0");
    let turn = listed(&[3, 1, 2]);
    for mode in MODES {
        assert!(!is_won_as_drawn(&graph, mode, &turn));
        assert_eq!(walk(&graph, mode, &turn), Walk::Won((1, 3)));
        assert_eq!(clause(&graph, mode, &turn), [-1, 3]);
        let mut by_driven_values = 0;
        for order in 1..=4 {
            for graph in samples::every_graph(order) {
                for p in all_permitted(&graph) {
                    let as_drawn = is_won_as_drawn(&graph, mode, &p);
                    let won = is_won(&graph, mode, &p);
                    assert!(won || !as_drawn, "{graph:?} {p:?}");
                    by_driven_values += u32::from(won && !as_drawn);
                }
            }
        }
        assert!(by_driven_values > 0);
    }
}

// ---- full drawings

/// The first of these pairs where a full drawing and what a list of vertices makes of it
/// differ, with the drawing's entry there.
fn difference(graph: &Graph, beginning: &[u32], on: &[Pair]) -> Option<(Pair, u32)> {
    let image = |i: u32, j: u32| graph.at(beginning[i as usize - 1], beginning[j as usize - 1]);
    let first = on.iter().find(|&&(i, j)| graph.at(i, j) != image(i, j));
    first.map(|&(i, j)| ((i, j), graph.at(i, j)))
}

/// On a full drawing the first difference decides, for an arrangement and for each of its
/// beginnings, and the walk has met every pair that was compared up to there.
#[test]
fn on_a_full_drawing_the_first_difference_decides() {
    for order in 1..=4 {
        for starts in all_starts(order) {
            for drawing in 0..1 << pair_count(order) {
                let graph = graph_of(order, starts, drawing);
                for beginning in beginnings(&graph) {
                    MODES.iter().for_each(|&mode| check_beginning(&graph, mode, &beginning));
                }
            }
        }
    }
}

/// By rows a beginning that is not complete is judged on row 1, by columns on every pair
/// of its places.
fn check_beginning(graph: &Graph, mode: u32, beginning: &[u32]) {
    let length = beginning.len() as u32;
    let on: Vec<Pair> = match mode {
        BY_ROWS if length < graph.order => (2..=length).map(|j| (1, j)).collect(),
        BY_ROWS => pairs(graph.order).collect(),
        _ => (2..=length).flat_map(|j| (1..j).map(move |i| (i, j))).collect(),
    };
    let expected = match difference(graph, beginning, &on) {
        Some((pair, EDGE)) => Walk::Won(pair),
        Some(_) => Walk::Lost,
        None => Walk::Open,
    };
    assert_eq!(state(graph, mode, beginning), expected, "{graph:?} mode {mode} {beginning:?}");
    if let (Walk::Won(last), true) = (expected, length == graph.order) {
        check_compared(graph, mode, &listed(beginning), last);
    }
}

/// The walk has met the pairs up to the last one and their images, but for own images.
fn check_compared(graph: &Graph, mode: u32, p: &Arrangement, last: Pair) {
    let mut compared = Vec::new();
    for (i, j) in pairs(graph.order).filter(|&pair| !is_before(mode, last, pair)) {
        let (x, y) = (vertex_at(p, i), vertex_at(p, j));
        let image = (x.min(y), x.max(y));
        if image != (i, j) {
            compared.extend([(i, j), image]);
        }
    }
    compared.sort();
    compared.dedup();
    let literal = |&(i, j): &Pair| {
        let number = pair_number(graph.order, i, j) as i32;
        if graph.at(i, j) == EDGE { -number } else { number }
    };
    let literals: Vec<i32> = compared.iter().map(literal).collect();
    assert_eq!(literals_met(graph, mode, p), literals, "{graph:?} mode {mode} {p:?}");
}

// ---- all that judge

/// Checks what was told of a graph with budget enough against brute force.
fn check_told(graph: &Graph, mode: u32, (judgement, _): &Judged) {
    let first = all_permitted(graph).into_iter().find(|p| is_certificate(graph, mode, p));
    let told = match judgement.verdict {
        Verdict::Smaller { .. } => Some(judgement.arrangement),
        Verdict::Nothing { .. } => None,
        other => panic!("the budget is enough: {other:?}"),
    };
    assert_eq!(told, first, "{graph:?} mode {mode}");
}

/// Checks that all judges tell of these graphs what the plain definition gives, with the
/// pair, the steps and the clause, and that its certificates are the first ones.
fn check_judges(graphs: &[Graph], mode: u32) {
    for graphs in graphs.chunks(BATCH) {
        let plain = |graph| {
            let mut literals = vec![UNTOUCHED; 21];
            (judge_plain(graph, mode, u32::MAX, &mut literals), literals)
        };
        let expected: Vec<Judged> = graphs.iter().map(plain).collect();
        graphs.iter().zip(&expected).for_each(|(graph, told)| check_told(graph, mode, told));
        for judge in JUDGES {
            for ((graph, told), expected) in
                graphs.iter().zip(judge(graphs, mode, u32::MAX, 21)).zip(&expected)
            {
                assert_eq!(told, *expected, "{graph:?} mode {mode}");
            }
        }
    }
}

#[test]
fn every_graph_up_to_order_4_is_told_its_first_certificate() {
    for order in 1..=4 {
        let graphs: Vec<Graph> = samples::every_graph(order).collect();
        MODES.iter().for_each(|&mode| check_judges(&graphs, mode));
    }
}

#[test]
fn random_graphs_up_to_order_7_are_told_their_first_certificate() {
    for mode in MODES {
        let mut random = Random::new(32);
        for (order, rounds) in [(5, 4_000), (6, 300), (7, 60)] {
            let graphs = (0..rounds).flat_map(|_| {
                let graph = samples::graph(&mut random, order);
                [graph, samples::settled(graph, mode, u32::MAX)]
            });
            check_judges(&graphs.collect::<Vec<_>>(), mode);
        }
    }
}

/// "None" says that no one arrangement serves every full drawing: here there are two,
/// and each has an earlier copy by another.
#[test]
fn none_where_two_full_drawings_need_two_arrangements() {
    let graph = Graph::drawn(4, "0u0010");
    for (mode, steps) in [(BY_ROWS, 44), (BY_COLUMNS, 40)] {
        check_judges(&[graph], mode);
        for judge in JUDGES {
            let [(judgement, _)] = &judge(&[graph], mode, u32::MAX, 6)[..] else {
                panic!("one is judged")
            };
            assert_eq!(judgement.verdict, Verdict::Nothing { steps });
        }
        for (drawing, p) in [("000010", [1, 3, 2, 4]), ("010010", [1, 2, 4, 3])] {
            let drawing = Graph::drawn(4, drawing);
            assert!(relabel(&drawing, &listed(&p)).unwrap().compare(mode, &drawing).is_lt());
        }
    }
}
