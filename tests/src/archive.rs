//! The proved library, linked with the benchmark.

use crate::linked::Linked;

unsafe extern "C" {
    fn cafruzek_judge_record(
        record: *const u8,
        record_len: usize,
        mode: u32,
        budget: u32,
        literals: *mut i32,
        literals_len: usize,
        arrangement: *mut u8,
    ) -> u64;

    fn cafruzek_judge_rows(
        order: u32,
        edges: *const u32,
        unknowns: *const u32,
        starts: u32,
        mode: u32,
        budget: u32,
        literals: *mut i32,
        literals_len: usize,
        arrangement: *mut u8,
    ) -> u64;

    fn cafruzek_record_size(record: *const u8, record_len: usize) -> u64;

    fn cafruzek_write_record(
        order: u32,
        edges: *const u32,
        unknowns: *const u32,
        starts: u32,
        out: *mut u8,
        out_len: usize,
    ) -> u64;
}

pub const ARCHIVE: Linked = Linked {
    judge_record: cafruzek_judge_record,
    judge_rows: cafruzek_judge_rows,
    record_size: cafruzek_record_size,
    write_record: cafruzek_write_record,
};
