//! Where a call turns back: the elimination's tests with 4 for the closed table, then the two of K2 in document 02.

use crate::algebra::Algebra;
use crate::elimination::eliminate;
use crate::ways::Question;
use crate::MAX_SIZE;

/// The numbers of the refusals, in the order of their tests.
pub const NUMBERS: [u32; 7] = [1, 2, 3, 4, 5, 19, 20];

/// The number of the first test that applies, or 0 where the call is accepted.
pub fn refusal(asked: &Question, list_len: usize) -> u32 {
    let n = asked.size;
    let Some(&algebra) = Algebra::ALL.get(asked.algebra as usize) else {
        return 1;
    };
    if n == 0 || n > MAX_SIZE {
        2
    } else if asked.links.len() != n * n {
        3
    } else if asked.closed.len() != n * n {
        4
    } else if algebra == Algebra::Reach && asked.links.iter().any(|&word| word > 1) {
        5
    } else if list_len != n
        || asked.from >= n
        || asked.to >= n
        || asked.closed != eliminate(algebra, n, asked.links)
    {
        19
    } else if asked.closed[asked.from * n + asked.to] == algebra.none() {
        20
    } else {
        0
    }
}
