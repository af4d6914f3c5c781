//! Time per call, side by side in one run: the proved library (with the feature
//! `library`), the Rust oracle and the C baseline. All do the whole work.
//!
//! Arguments name the kinds to measure, `clauses` the table of clauses, and `rows` or
//! `columns` the mode; all without any.

mod calls;
mod kinds;
mod timing;

use std::env;

use oracle::judge::judge;
use oracle::judge_plain::literals_met;
use oracle::pairs::BY_COLUMNS;
use oracle::verdict::Verdict;

use calls::{CONTENDERS, Call, Room, same_answers};
use kinds::{KINDS, Kind, ORDERS, WITH_CLAUSES};
use timing::measure;

/// The word for a mode.
fn word(mode: u32) -> &'static str {
    if mode == BY_COLUMNS { "columns" } else { "rows" }
}

/// The mode in which these calls judge, if they do.
fn mode_told(calls: &[Call]) -> &'static str {
    match calls.first() {
        Some(Call::JudgeRows(_, mode, _) | Call::JudgeRecord(_, mode, _)) => word(*mode),
        _ => "-",
    }
}

/// The mean steps of judging rows; nothing for a kind of records.
fn steps_told(calls: &[Call], answers: &[(u64, Room)]) -> String {
    let judged = calls.iter().all(|call| matches!(call, Call::JudgeRows(..)));
    let steps: f64 = answers.iter().map(|(answer, _)| f64::from(*answer as u32)).sum();
    if judged { format!("{:.1}", steps / answers.len() as f64) } else { "-".to_string() }
}

/// A line of the table of whole calls.
fn print_call(kind: &str, order: u32, calls: &[Call]) {
    let steps = steps_told(calls, &same_answers(calls));
    print!("{kind:<6}{:>8}{order:>6}{steps:>11}", mode_told(calls));
    let runs: Vec<_> = CONTENDERS.iter().map(|contender| (calls, contender)).collect();
    let times = measure(&runs);
    times.iter().for_each(|time| print!("{time:>14.1}"));
    if cfg!(feature = "library") {
        print!("{:>11.2}", times[0] / times[times.len() - 1]);
    }
    println!();
}

/// The table of whole calls.
fn print_calls(kinds: &[&Kind], is_asked: impl Fn(u32) -> bool) {
    print!("{:<6}{:>8}{:>6}{:>11}", "kind", "mode", "order", "steps");
    for (name, _) in CONTENDERS {
        print!("{:>14}", format!("{name} ns"));
    }
    println!("{}", if cfg!(feature = "library") { "  library/c" } else { "" });
    for (kind, modes, make) in kinds {
        for &mode in modes.iter().filter(|&&mode| is_asked(mode)) {
            ORDERS.iter().for_each(|&order| print_call(kind, order, &make(order, mode)));
        }
    }
}

/// Calls that give a clause, the same calls with a step too few, and how many literals
/// were met and kept.
#[derive(Default)]
struct Clauses {
    told: Vec<Call>,
    cut: Vec<Call>,
    met: usize,
    kept: usize,
}

impl Clauses {
    /// Those of these calls that judge rows and give one.
    fn of(calls: Vec<Call>) -> Clauses {
        let mut clauses = Clauses::default();
        for call in calls {
            let Call::JudgeRows(graph, mode, budget) = call else { continue };
            let judgement = judge(&graph, mode, budget, &mut [0; 496]);
            if let Verdict::Smaller { steps, .. } = judgement.verdict {
                clauses.told.push(call);
                clauses.cut.push(Call::JudgeRows(graph, mode, steps - 1));
                clauses.met += literals_met(&graph, mode, &judgement.arrangement).len();
                clauses.kept += judgement.literals;
            }
        }
        clauses
    }
}

/// A line of the table of clauses.
fn print_clause(kind: &str, order: u32, calls: Vec<Call>) {
    let Clauses { told, cut, met, kept } = Clauses::of(calls);
    same_answers(&told);
    same_answers(&cut);
    let graphs = told.len();
    let mean = |literals: usize| literals as f64 / graphs as f64;
    print!("{kind:<8}{:>8}{order:>6}{graphs:>8}", mode_told(&told));
    print!("{:>8.1}{:>8.1}", mean(met), mean(kept));
    let both = |contender| [(&told[..], contender), (&cut[..], contender)];
    let runs: Vec<_> = CONTENDERS.iter().flat_map(both).collect();
    for times in measure(&runs).chunks(2) {
        print!("{:>14.1}{:>12.1}{:>12.1}", times[0], times[1], times[0] - times[1]);
    }
    println!();
}

/// The table of clauses.
fn print_clauses(is_asked: impl Fn(u32) -> bool) {
    print!("{:<8}{:>8}{:>6}{:>8}{:>8}{:>8}", "clauses", "mode", "order", "graphs", "met", "kept");
    for (name, _) in CONTENDERS {
        print!("{:>14}{:>12}{:>12}", format!("{name} ns"), "cut ns", "told ns");
    }
    println!();
    for (kind, modes, make) in WITH_CLAUSES {
        for &mode in modes.iter().filter(|&&mode| is_asked(mode)) {
            ORDERS.iter().for_each(|&order| print_clause(kind, order, make(order, mode)));
        }
    }
}

fn main() {
    let (modes, kinds): (Vec<String>, Vec<String>) =
        env::args().skip(1).partition(|name| name == "rows" || name == "columns");
    let is_asked =
        |name: &str, asked: &[String]| asked.is_empty() || asked.iter().any(|a| a == name);
    let is_mode_asked = |mode| is_asked(word(mode), &modes);
    let tables: Vec<&Kind> = KINDS.iter().filter(|(kind, _, _)| is_asked(kind, &kinds)).collect();
    if !tables.is_empty() {
        print_calls(&tables, is_mode_asked);
    }
    if is_asked("clauses", &kinds) {
        print_clauses(is_mode_asked);
    }
}
