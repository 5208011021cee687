//! Road files, as K7 of document 02 wants them read: the text form of the ninth DIMACS shortest path challenge, into a
//! distance table.

pub mod big;
pub mod border;
pub mod comparison;
pub mod draft;
pub mod form_damages;
pub mod kinds;
pub mod memory;
pub mod mixed_damages;
pub mod one_walk;
pub mod order_damages;
pub mod printed;
pub mod range_damages;
pub mod reader;
pub mod style;

use crate::MAX_SIZE;

/// The words of the table's buffer, whatever the number of points.
pub const WORDS: usize = MAX_SIZE * MAX_SIZE;
/// A pair with no arc.
pub const NONE: u16 = 65535;
/// The longest length; what is longer is read as this.
pub const FAR: u16 = 65534;

/// The longest file that the program takes.
pub const LONGEST: usize = 1_048_576;

/// A wrong buffer, or a line of no known form.
pub const FORM: u32 = 21;
/// A point, or the number of points, out of range.
pub const RANGE: u32 = 22;
/// Another number of arcs than the file says.
pub const COUNT: u32 = 23;

/// The number of points, or of the refusal.
pub type Answer = Result<usize, u32>;

/// A reader in Rust: of a file into a buffer.
pub type Read = fn(&[u8], &mut [u16]) -> Answer;
