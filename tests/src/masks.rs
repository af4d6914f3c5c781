//! Masks of vertices, which count from 0.

pub fn is_set(mask: u32, vertex: usize) -> bool {
    mask >> (vertex & 31) & 1 == 1
}

/// The mask of the vertices below a bound of at most 32.
pub fn below(bound: usize) -> u32 {
    ((1u64 << bound) - 1) as u32
}
