//! The bench program: its sheet written anew, the proved one as a call and as a process, what is counted and timed.

pub mod array_times;
pub mod program_call;
pub mod range_times;
pub mod road_times;
pub mod row_sheet;
pub mod sheet;
pub mod timing;
