//! How long calls take.

use std::hint::black_box;
use std::time::{Duration, Instant};

use crate::calls::{Call, Contender, Room};

/// The time of this many rounds over all calls.
fn timed(calls: &[Call], contender: &Contender, rounds: u32) -> Duration {
    let mut room = Room::EMPTY;
    let start = Instant::now();
    for _ in 0..rounds {
        for call in calls {
            let answer = contender.1(black_box(call), &mut room);
            black_box((answer, &mut room));
        }
    }
    start.elapsed()
}

/// The nanoseconds of a call, the best of several turns that these runs, calls of a
/// contender, take one after another.
pub fn measure(runs: &[(&[Call], &Contender)]) -> Vec<f64> {
    const TURNS: usize = 25;
    const TURN: Duration = Duration::from_millis(20);
    let rounds: Vec<u32> = runs
        .iter()
        .map(|(calls, contender)| {
            let once = timed(calls, contender, 1).max(Duration::from_nanos(1));
            (TURN.as_nanos() / once.as_nanos()).clamp(1, 1_000_000) as u32
        })
        .collect();
    let mut best = vec![f64::INFINITY; runs.len()];
    for _ in 0..TURNS {
        for (index, (calls, contender)) in runs.iter().enumerate() {
            let spent = timed(calls, contender, rounds[index]).as_nanos() as f64;
            let made = f64::from(rounds[index]) * calls.len() as f64;
            best[index] = best[index].min(spent / made);
        }
    }
    best
}
