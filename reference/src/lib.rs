//! The elimination, the ways, the ranges, the cell array, the bench program and the reader of road files written anew from
//! documents 01 and 02, to hold the proved ones against: nothing here is taken from their sources, and they are reached
//! through C calls and as a process alone. (The benchmark's contenders may use the same tricks.)

pub mod agreement;
pub mod algebra;
pub mod bench;
pub mod calls;
pub mod comparison;
pub mod damages;
pub mod elimination;
pub mod host_call;
pub mod job_text;
pub mod lending;
pub mod random;
pub mod ranges;
pub mod road;
pub mod systolic;
pub mod tally;
pub mod texts;
pub mod ways;

/// The largest number of points in a table.
pub const MAX_SIZE: usize = 128;
