//! The oracle's own listing, on books whose text is known.

use oracle::graph::Graph;
use oracle::listing::{HEADER, listing};
use oracle::record::record;

#[test]
fn the_sample_book() {
    let text = "graph order verdict row column steps arrangement clause\n\
                1 3 smaller 1 2 4 1,3,2 -1,2\n\
                2 3 none 0 0 13 - -\n\
                3 0 refused 2 0 0 - -\n";
    assert_eq!(listing(&[0x0C, 0x40, 0x0C, 0x04, 0x00]), text);
}

#[test]
fn the_empty_book_is_the_header() {
    assert_eq!(listing(&[]), HEADER);
}

#[test]
fn a_cut_record_has_its_budget_as_steps() {
    let book = record(&Graph::empty(32));
    assert_eq!(listing(&book), format!("{HEADER}1 32 cut 0 0 1000000 - -\n"));
}

#[test]
fn a_refused_record_is_the_last_line() {
    let lines = "1 1 none 0 0 1 - -\n";
    for (tail, number) in [([0x0C, 0x41], 4), ([0x0C, 0x70], 3), ([0xFC, 0x04], 2)] {
        let book = [&[0x04], tail.as_slice(), &[0x04]].concat();
        assert_eq!(listing(&book), format!("{HEADER}{lines}2 0 refused {number} 0 0 - -\n"));
    }
    assert_eq!(listing(&[0x04, 0x0C]), format!("{HEADER}{lines}2 0 refused 1 0 0 - -\n"));
}

#[test]
fn the_longest_book_is_listed_and_a_longer_one_is_not() {
    let longest = listing(&[0x04; 65_536]);
    assert_eq!(longest.lines().count(), 65_537);
    assert!(longest.ends_with("\n65536 1 none 0 0 1 - -\n"));
    assert_eq!(listing(&[0x04; 65_537]), format!("{HEADER}0 0 refused 10 0 0 - -\n"));
}
