//! Where a call turns back: "all checks of the elimination are made for the best table, then for the worst", and 24 last.

use crate::elimination;
use crate::elimination::bytes_of;
use crate::ranges::Bounds;

/// The number of the first test that applies, or 0 where the call is accepted.
pub fn refusal(asked: &Bounds, result_lens: [usize; 2]) -> u32 {
    match checks(asked, result_lens) {
        [0, 0] if asked.inverted().is_empty() => 0,
        [0, 0] => 24,
        [0, of_worst] => of_worst,
        [of_best, _] => of_best,
    }
}

/// What the elimination makes of each table with its own result.
pub fn checks(asked: &Bounds, result_lens: [usize; 2]) -> [u32; 2] {
    [0, 1].map(|which| {
        let (table, result_len) = (bytes_of(asked.tables[which]), 2 * result_lens[which]);
        elimination::refusal::refusal(asked.algebra, asked.size, &table, result_len)
    })
}
