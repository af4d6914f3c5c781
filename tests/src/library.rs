//! The proved library, whose calls driver.c makes.

use std::cell::RefCell;
use std::io::{BufReader, Read, Write};
use std::process::{Child, ChildStdin, ChildStdout, Stdio};
use std::{env, thread};

use crate::call::{Area, BATCH, Call};
use crate::program::command;

struct Driver {
    child: Child,
    input: ChildStdin,
    output: BufReader<ChildStdout>,
}

thread_local! {
    /// Each test has its own.
    static DRIVER: RefCell<Driver> = RefCell::new(Driver::start());
}

impl Driver {
    fn start() -> Driver {
        let words = env::var("CAFRUZEK_DRIVER").expect("CAFRUZEK_DRIVER starts the driver");
        let mut child = command(&words)
            .stdin(Stdio::piped())
            .stdout(Stdio::piped())
            .spawn()
            .expect("the driver starts");
        let input = child.stdin.take().unwrap();
        let output = BufReader::new(child.stdout.take().unwrap());
        Driver { child, input, output }
    }

    /// Makes these calls, and reads while it still writes, so that no pipe stays full.
    fn make(&mut self, calls: &mut [Call]) -> Vec<u64> {
        let sent = sent(calls);
        let Driver { input, output, .. } = self;
        thread::scope(|scope| {
            scope.spawn(move || input.write_all(&sent).expect("the driver reads the calls"));
            calls.iter_mut().map(|call| received(output, call)).collect()
        })
    }
}

impl Drop for Driver {
    fn drop(&mut self) {
        // All that was asked has been answered, or the test has failed.
        let _ = self.child.kill();
        let _ = self.child.wait();
    }
}

/// Makes these calls.
pub fn make(calls: &mut [Call]) -> Vec<u64> {
    let batch = |calls: &mut [Call]| DRIVER.with_borrow_mut(|driver| driver.make(calls));
    calls.chunks_mut(BATCH).flat_map(batch).collect()
}

/// A batch as driver.c reads it.
fn sent(calls: &[Call]) -> Vec<u8> {
    let mut bytes = Vec::new();
    let mut put = |numbers: &[u32]| {
        for number in numbers {
            bytes.extend_from_slice(&number.to_le_bytes());
        }
    };
    put(&[calls.len() as u32]);
    for call in calls {
        put(&[call.function as u32, call.order, call.starts, call.mode, call.budget]);
        for Area { words, start, length } in &call.areas {
            put(&[words.len() as u32 * 4, *start as u32, *length as u32]);
            put(words);
        }
    }
    bytes
}

/// The answer to a call, whose areas become as they are told.
fn received(output: &mut impl Read, call: &mut Call) -> u64 {
    let mut answer = [0; 8];
    output.read_exact(&mut answer).expect("the driver answers");
    let mut bytes = Vec::new();
    for area in &mut call.areas {
        bytes.resize(area.words.len() * 4, 0);
        output.read_exact(&mut bytes).expect("the driver answers");
        let words = bytes.chunks_exact(4).map(|word| u32::from_le_bytes(word.try_into().unwrap()));
        area.words.clear();
        area.words.extend(words);
    }
    u64::from_le_bytes(answer)
}
