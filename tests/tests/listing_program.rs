//! The listing program against the oracle's listing, byte for byte.
//!
//! CAFRUZEK_LISTING has the command words that start it, if not the program alone.
#![cfg(feature = "listing")]

use std::env;
use std::io::{ErrorKind, Write};
use std::process::Stdio;
use std::thread;
use std::time::Duration;

use oracle::graph::Graph;
use oracle::listing::listing;
use oracle::program::command;
use oracle::random::Random;
use oracle::record::record;
use oracle::samples;

/// What the program prints for a book that comes in pieces of this size, with
/// a pause between them.
fn printed(book: &[u8], piece: usize, pause: Duration) -> String {
    let words = env::var("CAFRUZEK_LISTING");
    let mut child = command(words.as_deref().unwrap_or("../crates/listing/out/listing"))
        .stdin(Stdio::piped())
        .stdout(Stdio::piped())
        .spawn()
        .expect("the program starts");
    let mut input = child.stdin.take().unwrap();
    let output = thread::scope(|scope| {
        scope.spawn(move || {
            for part in book.chunks(piece) {
                match input.write_all(part) {
                    // It may stop reading where the book is too long.
                    Err(error) if error.kind() == ErrorKind::BrokenPipe => return,
                    written => written.expect("the book is written"),
                }
                thread::sleep(pause);
            }
        });
        child.wait_with_output().expect("the program ends")
    });
    assert!(output.status.code().is_some(), "no signal ended it");
    String::from_utf8(output.stdout).expect("the listing is text")
}

fn check(book: &[u8]) {
    assert_eq!(printed(book, usize::MAX, Duration::ZERO), listing(book), "{book:02x?}");
}

/// A book of random records that are judged quickly.
fn book(random: &mut Random, records: u32) -> Vec<u8> {
    (0..records)
        .flat_map(|_| {
            let most = *random.pick(&[3, 6, 32]);
            let order = random.from(1, most);
            record(&samples::sprinkled(random, order, 40, 30))
        })
        .collect()
}

#[test]
fn the_sample_and_the_empty_book() {
    check(&[0x0C, 0x40, 0x0C, 0x04, 0x00]);
    check(&[]);
}

#[test]
fn random_books() {
    let mut random = Random::new(21);
    for _ in 0..100 {
        let records = random.from(1, 30);
        check(&book(&mut random, records));
    }
}

#[test]
fn a_cut_record() {
    let mut bytes = record(&Graph::empty(32));
    bytes.push(0x04);
    check(&bytes);
}

#[test]
fn damaged_books() {
    let mut random = Random::new(22);
    for _ in 0..200 {
        let mut bytes = book(&mut random, 8);
        let at = random.below(bytes.len() as u32) as usize;
        bytes[at] ^= 1 << random.below(8);
        check(&bytes);
    }
}

#[test]
fn noise() {
    let mut random = Random::new(23);
    for _ in 0..200 {
        let length = random.below(300) as usize;
        check(&random.bytes(length));
    }
}

#[test]
fn a_book_cut_at_every_byte() {
    let mut random = Random::new(24);
    let bytes = book(&mut random, 6);
    for length in 0..=bytes.len() {
        check(&bytes[..length]);
    }
}

#[test]
fn the_longest_books_and_longer_ones() {
    for length in [65_535, 65_536, 65_537, 70_000, 1_000_000] {
        check(&vec![0x04; length]);
    }
    let mut random = Random::new(25);
    let mut bytes = Vec::new();
    while bytes.len() < 65_537 {
        bytes.extend(book(&mut random, 10));
    }
    check(&bytes[..65_536]);
    check(&bytes[..65_537]);
}

#[test]
fn a_slow_pipe() {
    let mut random = Random::new(26);
    let bytes = book(&mut random, 5);
    let expected = listing(&bytes);
    for piece in [1, 2, 7, 64] {
        assert_eq!(printed(&bytes, piece, Duration::from_millis(1)), expected);
    }
    let long = vec![0x04; 65_536];
    for piece in [1_000, 4_096, 65_535] {
        assert_eq!(printed(&long, piece, Duration::from_millis(1)), listing(&long));
    }
    let too_long = vec![0x04; 65_537];
    for piece in [4_096, 65_536] {
        assert_eq!(printed(&too_long, piece, Duration::from_millis(1)), listing(&too_long));
    }
}
