//! Where a call turns back: the row "Elimination" of the table in document 01, lengths in bytes.

use crate::MAX_SIZE;

/// The numbers of the refusals.
pub const NUMBERS: [u32; 5] = [1, 2, 3, 4, 5];

/// The number of the first test that applies, or 0 where the call is accepted.
pub fn refusal(algebra: u32, size: usize, weights: &[u8], result_len: usize) -> u32 {
    let has_foreign_word = || {
        let mut words = weights.chunks(2);
        words.any(|word| word != [0, 0] && word != [1, 0])
    };
    if algebra > 2 {
        1
    } else if size == 0 || size > MAX_SIZE {
        2
    } else if weights.len() != 2 * size * size {
        3
    } else if result_len != 2 * size * size {
        4
    } else if algebra == 0 && has_foreign_word() {
        5
    } else {
        0
    }
}
