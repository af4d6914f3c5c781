//! The rules of docs/RULES.md, written once more from their words.
//!
//! Nothing here is shared with the proved crates, so that an answer on which
//! both agree was found twice.

#[cfg(feature = "library")]
pub mod archive;
pub mod arrangement;
pub mod baseline;
mod board;
pub mod call;
pub mod clause;
pub mod graph;
pub mod judge;
pub mod judge_plain;
pub mod judges;
#[cfg(feature = "driver")]
pub mod library;
pub mod linked;
pub mod listing;
pub mod masks;
pub mod packing;
pub mod pairs;
pub mod program;
pub mod random;
pub mod record;
pub mod samples;
mod search_columns;
mod search_rows;
pub mod smallest;
pub mod trials;
pub mod verdict;
