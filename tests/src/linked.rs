//! The functions of include/cafruzek.h, called as C calls them: those of the C
//! baseline, and for the benchmark those of the proved library.

use crate::call::{Call, Function};

type JudgeRecord =
    unsafe extern "C" fn(*const u8, usize, u32, u32, *mut i32, usize, *mut u8) -> u64;
type JudgeRows = unsafe extern "C" fn(
    u32,
    *const u32,
    *const u32,
    u32,
    u32,
    u32,
    *mut i32,
    usize,
    *mut u8,
) -> u64;
type RecordSize = unsafe extern "C" fn(*const u8, usize) -> u64;
type WriteRecord = unsafe extern "C" fn(u32, *const u32, *const u32, u32, *mut u8, usize) -> u64;

/// The four functions; each is as the header says.
pub struct Linked {
    pub judge_record: JudgeRecord,
    pub judge_rows: JudgeRows,
    pub record_size: RecordSize,
    pub write_record: WriteRecord,
}

impl Linked {
    /// Makes a call.
    pub fn make(&self, call: &mut Call) -> u64 {
        let Call { function, order, starts, mode, budget, ref mut areas } = *call;
        let lent: Vec<_> = areas.iter_mut().map(|area| (area.lend(), area.length)).collect();
        // SAFETY: each pointer is to as many elements as the length beside it says,
        // rows and arrangements are 32, and numbers are aligned.
        unsafe {
            match (function, &lent[..]) {
                (Function::JudgeRecord, &[(record, bytes), (literals, room), (placed, 32)]) => {
                    (self.judge_record)(record, bytes, mode, budget, literals.cast(), room, placed)
                }
                (
                    Function::JudgeRows,
                    &[(edges, 32), (unknowns, 32), (literals, room), (placed, 32)],
                ) => {
                    let (edges, unknowns, literals) =
                        (edges.cast(), unknowns.cast(), literals.cast());
                    let judge = self.judge_rows;
                    judge(order, edges, unknowns, starts, mode, budget, literals, room, placed)
                }
                (Function::RecordSize, &[(record, bytes)]) => (self.record_size)(record, bytes),
                (Function::WriteRecord, &[(edges, 32), (unknowns, 32), (out, room)]) => {
                    (self.write_record)(order, edges.cast(), unknowns.cast(), starts, out, room)
                }
                _ => panic!("the call lends what its function takes"),
            }
        }
    }
}
