//! What the listing program prints for a book.

use std::fmt::Write;

use crate::graph::Refusal;
use crate::judge::judge;
use crate::pairs::BY_ROWS;
use crate::record::read;
use crate::verdict::Verdict;

pub const HEADER: &str = "graph order verdict row column steps arrangement clause\n";

/// The longest book that is listed.
pub const LONGEST: usize = 65_536;

/// The budget of each judgement.
pub const BUDGET: u32 = 1_000_000;

/// The listing of a book, byte for byte.
pub fn listing(book: &[u8]) -> String {
    let mut text = String::from(HEADER);
    if book.len() > LONGEST {
        text += &refused_line(0, Refusal::plain(10));
        return text;
    }
    let mut rest = book;
    let mut number = 0;
    while !rest.is_empty() {
        number += 1;
        let reading = read(rest);
        if let Some(refusal) = reading.refusal {
            text += &refused_line(number, refusal);
            return text;
        }
        rest = reading.follows;
        let order = reading.graph.order;
        let mut literals = [0; 496];
        let judgement = judge(&reading.graph, BY_ROWS, BUDGET, &mut literals);
        write!(text, "{number} {order} ").expect("a string takes it");
        match judgement.verdict {
            Verdict::Smaller { row, column, steps } => {
                let arrangement = joined(&judgement.arrangement[..order as usize]);
                let clause = joined(&literals[..judgement.literals]);
                writeln!(text, "smaller {row} {column} {steps} {arrangement} {clause}")
            }
            Verdict::Nothing { steps } => writeln!(text, "none 0 0 {steps} - -"),
            Verdict::Cut { steps } => writeln!(text, "cut 0 0 {steps} - -"),
            Verdict::Refused(refusal) => panic!("a record that is read is judged: {refusal:?}"),
        }
        .expect("a string takes it");
    }
    text
}

/// A refused record's line: order 0, and the refusal's number under row.
fn refused_line(number: u32, refusal: Refusal) -> String {
    format!("{number} 0 refused {} 0 0 - -\n", refusal.number)
}

fn joined<T: ToString>(numbers: &[T]) -> String {
    numbers.iter().map(T::to_string).collect::<Vec<_>>().join(",")
}
