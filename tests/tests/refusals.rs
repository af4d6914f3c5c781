//! Every refusal, in the order of its checks, and what it gives besides.

use oracle::arrangement::{compose, invert, listed, relabel};
use oracle::graph::{Counts, Graph, Refusal};
use oracle::judge_plain::judge_plain;
use oracle::judges::{JUDGES, UNTOUCHED};
use oracle::pairs::MODES;
use oracle::record::{Reader, field, read, record, size, write};
use oracle::trials::tried;
use oracle::verdict::{Judgement, Verdict};

fn refusal(number: u32, place: u64) -> Refusal {
    Refusal { number, place }
}

/// One value for each way of not being well formed.
fn malformed() -> Vec<Graph> {
    let good = Graph::drawn(3, "1u0");
    let changed = |change: fn(&mut Graph)| {
        let mut graph = good;
        change(&mut graph);
        graph
    };
    assert!(good.well_formed());
    vec![
        Graph::ZERO,
        changed(|g| g.order = 33),
        changed(|g| g.order = u32::MAX),
        changed(|g| g.order = 2),
        changed(|g| g.edges[0] ^= 0b010),
        changed(|g| g.unknowns[2] ^= 0b001),
        changed(|g| g.edges[1] |= 0b010),
        changed(|g| g.unknowns[1] |= 0b010),
        changed(|g| g.edges[31] |= 1 << 31),
        changed(|g| {
            g.edges[3] |= 0b001;
            g.edges[0] |= 0b1000;
        }),
        changed(|g| {
            g.unknowns[0] |= 0b010;
            g.unknowns[1] |= 0b001;
        }),
        changed(|g| g.starts = 0b110),
        changed(|g| g.starts = 0b1001),
    ]
}

#[test]
fn a_malformed_graph_is_refused_first() {
    let eight = refusal(8, 0);
    for graph in malformed() {
        assert!(!graph.well_formed());
        assert_eq!(graph.entry(0, 0), Err(eight));
        assert_eq!(graph.set(0, 0, 3), (graph, Some(eight)));
        assert_eq!(graph.counts(), Err(eight));
        assert_eq!(graph.degree(0), Err(eight));
        assert_eq!(relabel(&graph, &[9; 32]), Err(eight));
        assert_eq!(write(&graph, &mut []), Err(eight));
        let refused = Judgement::without(Verdict::Refused(eight));
        for mode in MODES {
            assert!(
                JUDGES.iter().all(|judge| judge(&[graph], mode, 100, 0) == [(refused, vec![])])
            );
            assert_eq!(judge_plain(&graph, mode, 100, &mut []), refused);
        }
    }
}

#[test]
fn entries() {
    let graph = Graph::drawn(3, "1u0");
    assert_eq!(graph.entry(1, 2), Ok(1));
    assert_eq!(graph.entry(2, 1), Ok(1));
    assert_eq!(graph.entry(3, 1), Ok(2));
    assert_eq!(graph.entry(2, 3), Ok(0));
    let seven = refusal(7, 0);
    for (i, j) in [(0, 1), (1, 0), (4, 1), (1, 4), (2, 2), (u32::MAX, 1), (1, u32::MAX)] {
        assert_eq!(graph.entry(i, j), Err(seven));
        assert_eq!(graph.set(i, j, 3), (graph, Some(seven)));
    }
    assert_eq!(graph.set(1, 2, 3), (graph, Some(refusal(9, 0))));
    assert_eq!(graph.set(1, 2, u32::MAX), (graph, Some(refusal(9, 0))));
    assert_eq!(graph.set(3, 2, 2), (Graph::drawn(3, "1uu"), None));
    assert_eq!(graph.set(1, 3, 1), (Graph::drawn(3, "110"), None));
    assert_eq!(graph.set(2, 1, 0), (Graph::drawn(3, "0u0"), None));
}

#[test]
fn counts_and_degrees() {
    let graph = Graph::drawn(4, "1u0011");
    assert_eq!(graph.counts(), Ok(Counts { edges: 3, non_edges: 2, unknowns: 1 }));
    let degrees: Vec<_> = (1..=4).map(|v| graph.degree(v).unwrap()).collect();
    assert_eq!(degrees, [1, 2, 1, 2]);
    for vertex in [0, 5, u32::MAX] {
        assert_eq!(graph.degree(vertex), Err(refusal(7, 0)));
    }
}

#[test]
fn arrangements() {
    let eleven = refusal(11, 0);
    let turn = listed(&[2, 3, 1]);
    let swap = listed(&[2, 1, 3]);
    assert_eq!(compose(3, &turn, &swap), Ok(listed(&[3, 2, 1])));
    assert_eq!(compose(3, &swap, &turn), Ok(listed(&[1, 3, 2])));
    assert_eq!(invert(3, &turn), Ok(listed(&[3, 1, 2])));
    for order in [0, 33, u32::MAX] {
        let two = Err(refusal(2, u64::from(order)));
        assert_eq!(compose(order, &[9; 32], &turn), two);
        assert_eq!(invert(order, &[9; 32]), two);
    }
    let graph = Graph::drawn(3, "100");
    for bad in
        [[1, 2, 2].as_slice(), &[1, 2], &[1, 2, 4], &[0, 1, 2], &[1, 2, 3, 4], &[1, 2, 3, 0, 1]]
    {
        let bad = listed(bad);
        assert_eq!(compose(3, &bad, &turn), Err(eleven));
        assert_eq!(compose(3, &turn, &bad), Err(eleven));
        assert_eq!(invert(3, &bad), Err(eleven));
        assert_eq!(relabel(&graph, &bad), Err(eleven));
    }
    assert_eq!(relabel(&graph, &turn), Ok(Graph::drawn(3, "010")));
    let blocks = graph.with_starts(&[1, 3]);
    assert_eq!(relabel(&blocks, &turn), Err(eleven));
    assert_eq!(relabel(&blocks, &swap), Ok(blocks));
}

#[test]
fn fields() {
    let mut reader = Reader { bytes: &[0b1011_0010, 0b0101_1100], place: 0 };
    assert_eq!(reader.field(3), Ok(0b101));
    assert_eq!(reader.field(6), Ok(0b100100));
    assert_eq!(reader.field(6), Ok(0b101110));
    assert_eq!(reader.place, 15);
    for width in [0, 7, u32::MAX] {
        assert_eq!(reader.field(width), Err(refusal(12, 0)));
    }
    assert_eq!(reader.field(2), Err(refusal(1, 2)));
    assert_eq!(reader.place, 15);
    assert_eq!(reader.field(1), Ok(0));
    assert_eq!(reader.field(1), Err(refusal(1, 2)));
    assert_eq!(reader.place, 16);
    for place in [17, 1000, u64::MAX - 5, u64::MAX] {
        assert_eq!(field(&[1, 2], place, 0), Err(refusal(12, 0)));
        assert_eq!(field(&[1, 2], place, 6), Err(refusal(1, 2)));
    }
}

#[test]
fn reading_refuses_in_order() {
    let refused = |bytes: &[u8], number, place| {
        let reading = read(bytes);
        assert_eq!(reading.refusal, Some(refusal(number, place)));
        assert_eq!(reading.graph, Graph::ZERO);
        assert_eq!(reading.follows, bytes);
        assert_eq!(size(bytes), Err(refusal(number, place)));
    };
    refused(&[], 1, 0);
    refused(&[0x00], 2, 0);
    refused(&[0x84], 2, 33);
    refused(&[0xFF], 2, 63);
    refused(&[0x80; 128], 1, 128);
    refused(&[0x0C], 1, 1);
    // An entry 11 before a pad bit that is 1, and the first of two.
    refused(&[0x0C, 0x71], 3, 2);
    refused(&[0x0D, 0xF0], 3, 1);
    for pad in 1..4 {
        refused(&[0x0C, 0x40 | pad], 4, 0);
    }
}

#[test]
fn writing_refuses_a_short_buffer_and_touches_no_more_than_the_record() {
    let graph = Graph::drawn(3, "100");
    for length in 0..5 {
        let mut buffer = vec![0xAA; length];
        let answer = write(&graph, &mut buffer);
        if length < 2 {
            assert_eq!(answer, Err(refusal(6, 0)));
            assert!(buffer.iter().all(|&byte| byte == 0xAA));
        } else {
            assert_eq!(answer, Ok(2));
            assert_eq!(buffer[..2], [0x0C, 0x40]);
            assert!(buffer[2..].iter().all(|&byte| byte == 0xAA));
        }
    }
}

#[test]
fn judging_refuses_a_short_buffer_before_it_searches() {
    for order in 1..=32u32 {
        let graph = Graph::empty(order);
        let needed = (order * (order - 1) / 2) as usize;
        for length in needed.saturating_sub(2)..needed + 2 {
            let expected = Judgement::without(if length < needed {
                Verdict::Refused(refusal(5, 0))
            } else {
                Verdict::Cut { steps: 0 }
            });
            for (judge, mode) in JUDGES.iter().flat_map(|judge| MODES.map(|mode| (judge, mode))) {
                assert_eq!(judge(&[graph], mode, 0, length), [(expected, vec![UNTOUCHED; length])]);
            }
        }
    }
}

/// Numbers that are no mode.
const NO_MODES: [u32; 6] = [0, 3, 4, 257, 1 << 31 | 2, u32::MAX];

/// Refusal 16 comes before 8 and 5, and leaves the buffer.
#[test]
fn a_mode_that_is_none_is_refused_before_the_graph_and_the_buffer() {
    let refused = Judgement::without(Verdict::Refused(refusal(16, 0)));
    let good = [Graph::drawn(3, "100"), Graph::drawn(3, "1u0"), Graph::empty(1)];
    for graph in good.into_iter().chain(malformed()) {
        for mode in NO_MODES {
            for (budget, length) in [(0, 0), (100, 2), (100, 3), (u32::MAX, 496)] {
                let mut literals = vec![UNTOUCHED; length];
                assert_eq!(judge_plain(&graph, mode, budget, &mut literals), refused);
                let untouched = vec![UNTOUCHED; length];
                assert_eq!(literals, untouched);
                for judge in JUDGES {
                    let told = judge(&[graph], mode, budget, length);
                    assert_eq!(told, [(refused, untouched.clone())], "{graph:?} mode {mode}");
                }
            }
        }
    }
}

/// A record's own refusals come before 16, and 16 before 5; nothing lent is changed.
#[test]
fn a_mode_that_is_none_is_refused_after_the_record_and_before_the_buffer() {
    let good = record(&Graph::drawn(3, "100"));
    let bad: [&[u8]; 7] =
        [&[], &[0x00], &[0x84], &[0x0C], &[0x0C, 0x70], &[0x0C, 0x41], &[0x80; 128]];
    tried(|trials| {
        for mode in NO_MODES {
            for room in [0, 2, 3, 496] {
                trials.judge_rows(&Graph::drawn(3, "100"), mode, 100, room);
                malformed().iter().for_each(|graph| trials.judge_rows(graph, mode, 100, room));
                trials.judge_record(&good, mode, 100, room);
                bad.iter().for_each(|bytes| trials.judge_record(bytes, mode, 100, room));
            }
        }
    });
}
