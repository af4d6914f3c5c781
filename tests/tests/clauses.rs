//! What a clause is: of the literals that a walk met, those that the certificate needs.
//! Plain and fast clauses against brute force over all full drawings, and graphs where
//! a literal at the winning pair is dropped through every way of judging.

use oracle::arrangement::{Arrangement, all_permitted, listed};
use oracle::graph::{EDGE, Graph, NON_EDGE, UNKNOWN};
use oracle::judge_plain::{Pair, Walk, clause, knowing_only, literals_met, walk};
use oracle::judges::JUDGES;
use oracle::pairs::{BY_COLUMNS, BY_ROWS, MODES, pair_count, pairs};
use oracle::random::Random;
use oracle::samples;
use oracle::smallest::{Clause, full_drawings, is_sound};
use oracle::verdict::Verdict;

/// The winning pair of an arrangement, if it is a certificate.
fn winning_pair(graph: &Graph, mode: u32, p: &Arrangement) -> Option<Pair> {
    match walk(graph, mode, p) {
        Walk::Won(pair) => Some(pair),
        Walk::Lost | Walk::Open => None,
    }
}

// ---- clauses by full drawings

/// The literals but for this one.
fn without(literals: &[i32], literal: i32) -> Vec<i32> {
    literals.iter().copied().filter(|&other| other != literal).collect()
}

/// What the clause should be: of the literals met each, from the highest number down,
/// is dropped if all full drawings that break the others still have an earlier copy.
fn clause_by_drawings(graph: &Graph, mode: u32, p: &Arrangement) -> Vec<i32> {
    let met = literals_met(graph, mode, p);
    met.iter().rev().fold(met.clone(), |left, &literal| {
        let others = without(&left, literal);
        if is_sound(graph.order, mode, p, &others) { others } else { left }
    })
}

/// The clause as `judge` writes it.
fn fast_clause(graph: &Graph, mode: u32, p: &Arrangement, (row, column): Pair) -> Vec<i32> {
    let vertices = p.map(|vertex| vertex.saturating_sub(1));
    let mut literals = [0; 496];
    let pair = (row as usize - 1, column as usize - 1);
    let length = oracle::clause::write(graph, mode, &vertices, pair, &mut literals);
    literals[..length].to_vec()
}

/// Checks the clause of a certificate: it rises, was met and is false in the graph; all
/// full drawings that break it have an earlier copy, and without any one of its literals
/// some have none.
fn check_clause(graph: &Graph, mode: u32, p: &Arrangement, pair: Pair) {
    let here = || format!("{graph:?} mode {mode} {p:?}");
    let literals = clause(graph, mode, p);
    assert_eq!(fast_clause(graph, mode, p, pair), literals, "{}", here());
    assert_eq!(clause_by_drawings(graph, mode, p), literals, "{}", here());
    assert!(literals.is_sorted_by(|a, b| a.abs() < b.abs()), "{}", here());
    let met = literals_met(graph, mode, p);
    assert!(literals.iter().all(|literal| met.contains(literal)), "{}", here());
    let broken = Clause::new(graph.order, &literals);
    assert!(full_drawings(graph).all(|drawing| !broken.satisfied(drawing)), "{}", here());
    assert!(is_sound(graph.order, mode, p, &literals), "{}", here());
    for &literal in &literals {
        let others = without(&literals, literal);
        assert!(!is_sound(graph.order, mode, p, &others), "{} without {literal}", here());
    }
}

#[test]
fn clauses_of_every_certificate_up_to_order_4() {
    for order in 1..=4 {
        for graph in samples::every_graph(order) {
            for p in all_permitted(&graph) {
                for mode in MODES {
                    if let Some(pair) = winning_pair(&graph, mode, &p) {
                        check_clause(&graph, mode, &p, pair);
                    }
                }
            }
        }
    }
}

/// The first certificate, and one for each winning pair.
fn some_certificates(random: &mut Random, graph: &Graph, mode: u32) -> Vec<(Arrangement, Pair)> {
    let won = |p| winning_pair(graph, mode, &p).map(|pair| (p, pair));
    let mut all: Vec<_> = all_permitted(graph).into_iter().filter_map(won).collect();
    let first = all.first().copied();
    all.sort_by_cached_key(|&(_, pair)| (pair, random.word()));
    all.dedup_by_key(|&mut (_, pair)| pair);
    first.into_iter().chain(all).collect()
}

#[test]
fn clauses_of_random_certificates_up_to_order_7() {
    for mode in MODES {
        let mut random = Random::new(41);
        for (order, rounds) in [(5, 5_000), (6, 1_000), (7, 150)] {
            for _ in 0..rounds {
                let graph = samples::graph(&mut random, order);
                for (p, pair) in some_certificates(&mut random, &graph, mode) {
                    check_clause(&graph, mode, &p, pair);
                }
            }
        }
    }
}

// ---- literals dropped at the winning pair

/// A graph with its first certificate in a mode, the winning pair and the clause. Of the
/// literals met only one at the winning pair is dropped, and over what is left a later
/// pair wins.
struct Dropped {
    graph: Graph,
    mode: u32,
    vertices: &'static [u32],
    pair: Pair,
    dropped: i32,
    clause: &'static [i32],
    later: Pair,
}

/// By rows the image of the winning pair is dropped, the same with an own image before the
/// later pair, and the winning pair itself. By columns each of the two, both where its
/// number is the higher one, so that it is tried first, and where it is the lower one.
fn all_dropped() -> [Dropped; 7] {
    [
        Dropped {
            graph: Graph::drawn(5, "uu11u1uu00"),
            mode: BY_ROWS,
            vertices: &[3, 5, 1, 2, 4],
            pair: (2, 5),
            dropped: 10,
            clause: &[-3, -4, -6, 9],
            later: (3, 4),
        },
        Dropped {
            graph: Graph::drawn(6, "uu1u11u0u1uuu00"),
            mode: BY_ROWS,
            vertices: &[5, 2, 6, 1, 4, 3],
            pair: (3, 5),
            dropped: 14,
            clause: &[-3, -5, -6, 8, -10, 15],
            later: (4, 6),
        },
        Dropped {
            graph: Graph::drawn(6, "uu0u0uu11uuu00u"),
            mode: BY_ROWS,
            vertices: &[1, 4, 6, 2, 3, 5],
            pair: (2, 6),
            dropped: -9,
            clause: &[3, 5, -8, 13, 14],
            later: (3, 4),
        },
        Dropped {
            graph: Graph::drawn(6, "uu11u0uuuu1010u"),
            mode: BY_COLUMNS,
            vertices: &[2, 3, 1, 4, 6, 5],
            pair: (4, 5),
            dropped: 14,
            clause: &[-3, -4, 6, -11, 12, -13],
            later: (1, 6),
        },
        Dropped {
            graph: Graph::drawn(5, "1uuuu1010u").with_starts(&[1, 4]),
            mode: BY_COLUMNS,
            vertices: &[3, 1, 2, 5, 4],
            pair: (3, 4),
            dropped: -8,
            clause: &[-1, -6, 7, 9],
            later: (1, 5),
        },
        Dropped {
            graph: Graph::drawn(6, "u0u0uuuu01001u0"),
            mode: BY_COLUMNS,
            vertices: &[3, 1, 5, 2, 6, 4],
            pair: (4, 5),
            dropped: 9,
            clause: &[2, 4, -10, 11, 12, -13, 15],
            later: (2, 6),
        },
        Dropped {
            graph: Graph::drawn(5, "u111uu10u0"),
            mode: BY_COLUMNS,
            vertices: &[3, 4, 2, 1, 5],
            pair: (2, 5),
            dropped: -7,
            clause: &[-2, -3, -4, 8, 10],
            later: (3, 5),
        },
    ]
}

/// What all judges tell of a graph, which must be the same: the certificate, the winning
/// pair and the clause, which must be the plain one.
fn told(graph: &Graph, mode: u32) -> Option<(Arrangement, Pair, Vec<i32>)> {
    let room = pair_count(graph.order) as usize;
    let mut answers = JUDGES.iter().flat_map(|judge| judge(&[*graph], mode, u32::MAX, room));
    let (judgement, mut literals) = answers.next().expect("there is a judge");
    answers.for_each(|answer| assert_eq!(answer, (judgement, literals.clone()), "{graph:?}"));
    let Verdict::Smaller { row, column, .. } = judgement.verdict else {
        return None;
    };
    literals.truncate(judgement.literals);
    assert_eq!(literals, clause(graph, mode, &judgement.arrangement), "{graph:?}");
    Some((judgement.arrangement, (row, column), literals))
}

#[test]
fn over_what_the_clause_knows_a_later_pair_may_win() {
    for held in all_dropped() {
        let p = listed(held.vertices);
        let Dropped { graph, mode, .. } = held;
        assert_eq!(told(&graph, mode), Some((p, held.pair, held.clause.to_vec())));
        assert_eq!(without(&literals_met(&graph, mode, &p), held.dropped), held.clause);
        assert_eq!(walk(&knowing_only(&graph, held.clause), mode, &p), Walk::Won(held.later));
    }
}

/// Every graph that differs from this one in one entry.
fn neighbours(graph: Graph) -> impl Iterator<Item = Graph> {
    let put = move |((i, j), value)| {
        let mut other = graph;
        other.put(i, j, value);
        other
    };
    let values = [NON_EDGE, EDGE, UNKNOWN];
    let entries = pairs(graph.order).flat_map(move |pair| values.map(|value| (pair, value)));
    entries.map(put).filter(move |other| *other != graph)
}

#[test]
fn near_graphs_with_a_literal_dropped_at_the_winning_pair() {
    for held in all_dropped() {
        for near in neighbours(held.graph) {
            told(&near, held.mode);
            neighbours(near).for_each(|further| _ = told(&further, held.mode));
        }
    }
}

/// The graph behind so many vertices without edges, each a block of its own.
fn behind(fixed: u32, graph: &Graph) -> Graph {
    let starts = graph.starts << fixed | ((1 << fixed) - 1);
    let mut whole = Graph { starts, ..Graph::empty(fixed + graph.order) };
    for (i, j) in pairs(graph.order) {
        whole.put(fixed + i, fixed + j, graph.at(i, j));
    }
    whole
}

#[test]
fn literals_dropped_at_the_winning_pair_of_every_order() {
    for held in all_dropped() {
        for fixed in 1..=32 - held.graph.order {
            let graph = behind(fixed, &held.graph);
            let moved = |(i, j): Pair| (fixed + i, fixed + j);
            let (p, pair, literals) = told(&graph, held.mode).expect("it has a certificate");
            assert_eq!(pair, moved(held.pair));
            let won = walk(&knowing_only(&graph, &literals), held.mode, &p);
            assert_eq!(won, Walk::Won(moved(held.later)));
            neighbours(held.graph).for_each(|near| _ = told(&behind(fixed, &near), held.mode));
        }
    }
}
