//! The catalogue of examples/catalogue.cpp: with blocks against brute force, and
//! wishes that make no sense.
//!
//! CAFRUZEK_CATALOGUE has the command words that start it.
#![cfg(feature = "catalogue")]

use std::env;
use std::process::Output;

use oracle::graph::{EDGE, Graph};
use oracle::pairs::{BY_ROWS, pairs};
use oracle::program::command;
use oracle::smallest::{all_starts, graph_of, smallest};

/// What the program answers to these words.
fn answer(words: &str) -> Output {
    let start = env::var("CAFRUZEK_CATALOGUE").expect("CAFRUZEK_CATALOGUE says how to start it");
    command(&format!("{start} {words}")).output().expect("the program starts")
}

/// Its lines, sorted; the last line on standard error has their number.
fn listed(words: &str) -> Vec<String> {
    let output = answer(words);
    assert!(output.status.success(), "{words}: {output:?}");
    let text = String::from_utf8(output.stdout).expect("graph6 is text");
    let mut lines: Vec<String> = text.lines().map(String::from).collect();
    let said = String::from_utf8(output.stderr).expect("it tells in text");
    let count = format!("catalogue: found {}, asked ", lines.len());
    assert!(said.lines().last().is_some_and(|line| line.starts_with(&count)), "{words}: {said}");
    lines.sort();
    lines
}

/// The line of a graph: its order, then its entries by columns, six to a byte.
fn graph6(graph: &Graph) -> String {
    let columns = (2..=graph.order).flat_map(|j| (1..j).map(move |i| (i, j)));
    let bits: Vec<bool> = columns.map(|(i, j)| graph.at(i, j) == EDGE).collect();
    let six =
        |bits: &[bool]| (0..6).fold(0, |byte, k| byte << 1 | u8::from(bits.get(k) == Some(&true)));
    let entries = bits.chunks(6).map(|bits| char::from(63 + six(bits)));
    std::iter::once(char::from(63 + graph.order as u8)).chain(entries).collect()
}

fn triangle_free(graph: &Graph) -> bool {
    pairs(graph.order)
        .filter(|&(i, j)| graph.at(i, j) == EDGE)
        .all(|(i, j)| graph.edges[i as usize - 1] & graph.edges[j as usize - 1] == 0)
}

fn most_links(graph: &Graph) -> u32 {
    (1..=graph.order).map(|v| graph.degree(v).unwrap()).max().unwrap()
}

/// The smallest drawings that meet a wish are listed, and nothing else.
fn check(order: u32, starts: u32, wish: &str, meets: impl Fn(&Graph) -> bool) {
    let graphs = smallest(order, starts, BY_ROWS)
        .into_iter()
        .map(|drawing| graph_of(order, starts, drawing));
    let mut expected: Vec<String> = graphs.filter(meets).map(|graph| graph6(&graph)).collect();
    expected.sort();
    let blocks: Vec<String> =
        (1..=order).filter(|v| starts >> (v - 1) & 1 == 1).map(|v| v.to_string()).collect();
    let words = format!("--order {order} --blocks {} {wish}", blocks.join(","));
    assert_eq!(listed(&words), expected, "{words}");
}

#[test]
fn all_blocks_of_orders_to_5() {
    for order in 1..=5 {
        for starts in all_starts(order) {
            check(order, starts, "", |_| true);
        }
    }
}

#[test]
fn wishes_with_blocks() {
    for starts in all_starts(4) {
        check(4, starts, "--connected", Graph::connected);
        check(4, starts, "--links 3", |graph| graph.counts().unwrap().edges == 3);
    }
    for starts in [0b00101, 0b10001, 0b01011] {
        check(5, starts, "--triangle-free", triangle_free);
        check(5, starts, "--most-links-at-a-node 2", |graph| most_links(graph) <= 2);
    }
}

#[test]
fn wishes_that_make_no_sense() {
    for words in [
        "",
        "--order",
        "--order 0",
        "--order 33",
        "--order six",
        "--order -6",
        "--order 4294967301",
        "--order 5 --links 11",
        "--order 5 --links x",
        "--order 5 --least-links-at-a-node 5",
        "--order 5 --least-links-at-a-node 3 --most-links-at-a-node 2",
        "--order 5 --blocks 2,3",
        "--order 5 --blocks 1,3,3",
        "--order 5 --blocks 1,4,3",
        "--order 5 --blocks 1,6",
        "--order 5 --blocks 1,99",
        "--order 5 --blocks 1,,3",
        "--order 5 --blue",
    ] {
        let output = answer(words);
        assert_eq!(output.status.code(), Some(2), "{words}");
        assert!(output.stdout.is_empty(), "{words}");
        assert_eq!(output.stderr.iter().filter(|&&byte| byte == b'\n').count(), 1, "{words}");
    }
}

#[test]
fn help() {
    let output = answer("--help");
    assert!(output.status.success());
    assert!(output.stdout.starts_with(b"catalogue --order N"));
}
