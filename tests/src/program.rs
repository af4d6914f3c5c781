//! Programs for x86-64, which another machine runs through an emulator.

use std::process::Command;

/// The command of these words: a program, or an emulator and its arguments first.
pub fn command(words: &str) -> Command {
    let mut words = words.split_whitespace();
    let mut command = Command::new(words.next().expect("there are words"));
    command.args(words);
    command
}
