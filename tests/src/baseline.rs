//! The C baseline.

use crate::call::Call;
use crate::linked::Linked;

unsafe extern "C" {
    fn baseline_judge_record(
        record: *const u8,
        record_len: usize,
        mode: u32,
        budget: u32,
        literals: *mut i32,
        literals_len: usize,
        arrangement: *mut u8,
    ) -> u64;

    fn baseline_judge_rows(
        order: u32,
        edges: *const u32,
        unknowns: *const u32,
        starts: u32,
        mode: u32,
        budget: u32,
        literals: *mut i32,
        literals_len: usize,
        arrangement: *mut u8,
    ) -> u64;

    fn baseline_record_size(record: *const u8, record_len: usize) -> u64;

    fn baseline_write_record(
        order: u32,
        edges: *const u32,
        unknowns: *const u32,
        starts: u32,
        out: *mut u8,
        out_len: usize,
    ) -> u64;
}

pub const BASELINE: Linked = Linked {
    judge_record: baseline_judge_record,
    judge_rows: baseline_judge_rows,
    record_size: baseline_record_size,
    write_record: baseline_write_record,
};

/// Makes these calls.
pub fn make(calls: &mut [Call]) -> Vec<u64> {
    calls.iter_mut().map(|call| BASELINE.make(call)).collect()
}
