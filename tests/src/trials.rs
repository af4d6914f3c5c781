//! Calls that every contender makes, each of which must answer and leave all memory
//! as the oracle says.

use crate::call::{Area, BATCH, Call, Make};
use crate::graph::Graph;
use crate::judge::judge;
use crate::packing::{packed, packed_size};
use crate::random::Random;
use crate::record::{read, size, write};
use crate::verdict::{Judgement, Verdict};

/// What makes calls: the C baseline, and the proved library with the feature `driver`.
const CONTENDERS: &[Make] = &[
    crate::baseline::make,
    #[cfg(feature = "driver")]
    crate::library::make,
];

/// A call, the answer to it, and its areas afterwards.
struct Trial {
    call: Call,
    answer: u64,
    after: Vec<Area>,
}

/// Calls that are still to be made, and the source of what stands around and in
/// the memory that they lend.
pub struct Trials {
    random: Random,
    waiting: Vec<Trial>,
}

/// Makes all calls that are added.
pub fn tried(add: impl FnOnce(&mut Trials)) {
    let mut trials = Trials { random: Random::new(1), waiting: Vec::new() };
    add(&mut trials);
    trials.make();
}

impl Trials {
    /// A call that judges rows.
    pub fn judge_rows(&mut self, graph: &Graph, mode: u32, budget: u32, room: usize) {
        let call = Call::judge_rows(&mut self.random, graph, mode, budget, room);
        self.judged(call, graph, room);
    }

    /// A call that judges the bytes of a record, or bytes that are none.
    pub fn judge_record(&mut self, bytes: &[u8], mode: u32, budget: u32, room: usize) {
        let call = Call::judge_record(&mut self.random, bytes, mode, budget, room);
        let reading = read(bytes);
        match reading.refusal {
            Some(refusal) => {
                let refused = Judgement::without(Verdict::Refused(refusal));
                let after = call.areas.clone();
                self.add(Trial { call, answer: packed(&refused), after });
            }
            None => self.judged(call, &reading.graph, room),
        }
    }

    /// A call that asks the size of the record at the start of the bytes.
    pub fn record_size(&mut self, bytes: &[u8]) {
        let call = Call::record_size(&mut self.random, bytes);
        let after = call.areas.clone();
        self.add(Trial { call, answer: packed_size(size(bytes)), after });
    }

    /// A call that writes the record of a graph value to a buffer of so many bytes.
    pub fn write_record(&mut self, graph: &Graph, length: usize) {
        let mut bytes = vec![0; length];
        let written = write(graph, &mut bytes);
        let call = Call::write_record(&mut self.random, graph, length);
        let mut after = call.areas.clone();
        after[2].put_bytes(&bytes[..written.unwrap_or(0)]);
        self.add(Trial { call, answer: packed_size(written), after });
    }

    fn judged(&mut self, call: Call, graph: &Graph, room: usize) {
        let mut buffer = vec![0; room];
        let judgement = judge(graph, call.mode, call.budget, &mut buffer);
        let mut after = call.clone();
        if matches!(judgement.verdict, Verdict::Smaller { .. }) {
            let clause: Vec<u32> =
                buffer[..judgement.literals].iter().map(|&literal| literal as u32).collect();
            let (literals, arrangement) = after.certificate();
            literals.put_numbers(&clause);
            arrangement.put_bytes(&judgement.arrangement);
        }
        self.add(Trial { call, answer: packed(&judgement), after: after.areas });
    }

    fn add(&mut self, trial: Trial) {
        self.waiting.push(trial);
        if self.waiting.len() == BATCH {
            self.make();
        }
    }

    fn make(&mut self) {
        for make in CONTENDERS {
            let mut calls: Vec<Call> =
                self.waiting.iter().map(|trial| trial.call.clone()).collect();
            let answers = make(&mut calls);
            assert_eq!(answers.len(), calls.len());
            for ((trial, call), answer) in self.waiting.iter().zip(calls).zip(answers) {
                assert_eq!(answer, trial.answer, "{:?}", trial.call);
                assert_eq!(call.areas, trial.after, "{:?}", trial.call);
            }
        }
        self.waiting.clear();
    }
}
