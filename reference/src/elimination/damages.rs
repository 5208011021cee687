//! What can be wrong with a call of the elimination.

use crate::algebra::Algebra;
use crate::damages::Damage;
use crate::elimination::bytes_of;
use crate::elimination::tables::{table, Kind};
use crate::random::Random;
use crate::MAX_SIZE;

#[derive(Clone, Debug)]
pub struct Call {
    pub algebra: u32,
    pub size: usize,
    pub weights: Vec<u8>,
    pub result_len: usize,
}

impl Call {
    /// Right in all but perhaps its words.
    pub fn new(algebra: Algebra, size: usize, weights: &[u16]) -> Call {
        let weights = bytes_of(weights);
        Call {
            algebra: algebra.number(),
            size,
            result_len: weights.len(),
            weights,
        }
    }
}

/// From the last test to the first.
pub const DAMAGES: [Damage<Call>; 5] = [
    ("a word above 1", 5, damage_word),
    ("length of the result", 4, |random, call, right| {
        call.result_len = random.not(right.result_len, &[]);
    }),
    ("length of the weights", 3, |random, call, right| {
        let len = random.not(right.weights.len(), &[]);
        call.weights.resize(len, 1);
    }),
    ("size", 2, damage_size),
    ("algebra", 1, |random, call, right| {
        call.algebra = wrong_algebra(random, right.algebra);
    }),
];

/// Only reach has words that are refused.
pub fn right_call(random: &mut Random, in_reach: bool) -> Call {
    let algebra = match in_reach {
        true => Algebra::Reach,
        false => random.pick(&Algebra::ALL),
    };
    let largest = random.pick(&[4, 4, 4, 16, 16, MAX_SIZE]);
    let size = random.between(1, largest);
    let kind = random.pick(&Kind::ALL);
    Call::new(algebra, size, &table(random, algebra, size, kind))
}

pub(crate) fn wrong_algebra(random: &mut Random, right: u32) -> u32 {
    let large = random.large(right as usize) as u32;
    random.pick(&[3, 4, 255, large.max(3)])
}

/// The lengths stay as they are, or fit the new size, or fit what 64 bits make of its square.
fn damage_size(random: &mut Random, call: &mut Call, _: &Call) {
    call.size = wrong_size(random, call.size);
    let wrapped = call.size.wrapping_mul(call.size).wrapping_mul(2);
    if wrapped <= 100_000 && random.one_in(2) {
        call.weights.resize(wrapped, 0);
        call.result_len = wrapped;
    }
}

pub(crate) fn wrong_size(random: &mut Random, right: usize) -> usize {
    let large = random.large(right);
    random.pick(&[0, MAX_SIZE + 1, MAX_SIZE + right, large, large])
}

fn damage_word(random: &mut Random, call: &mut Call, _: &Call) {
    let (place, word) = wrong_word(random, call.size);
    call.weights[2 * place..2 * place + 2].copy_from_slice(&word.to_le_bytes());
}

/// A place in the table, anywhere or at an end or on the diagonal, and a word above 1 for it. Some have a byte that is
/// 0 or 1.
pub(crate) fn wrong_word(random: &mut Random, n: usize) -> (usize, u16) {
    let diagonal = random.below(n) * (n + 1);
    let anywhere = random.below(n * n);
    let place = random.pick(&[0, n * n - 1, diagonal, anywhere, anywhere]);
    let large = random.word().max(2);
    let word = random.pick(&[2, 3, 255, 256, 257, 0x8000, 0xFF01, 65535, large]);
    (place, word)
}
