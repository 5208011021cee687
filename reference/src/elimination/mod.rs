//! The elimination, as "Ways and elimination" in document 01 states it. It is not meant to be fast.

pub mod comparison;
pub mod damages;
pub mod lengths;
pub mod refusal;
pub mod rust_loop;
pub mod sse2;
pub mod tables;

use crate::algebra::Algebra;

/// The closure of a table of `size` times `size` words, row by row.
pub fn eliminate(algebra: Algebra, size: usize, weights: &[u16]) -> Vec<u16> {
    let table = with_own_diagonal(algebra, size, weights);
    (0..size).fold(table, |table, k| step(algebra, size, &table, k))
}

/// The tables that the elimination goes through: with the diagonal set, and after each step. The last is the closure.
pub fn stages(algebra: Algebra, size: usize, weights: &[u16]) -> Vec<Vec<u16>> {
    let mut stages = vec![with_own_diagonal(algebra, size, weights)];
    for k in 0..size {
        let next = step(algebra, size, &stages[k], k);
        stages.push(next);
    }
    stages
}

fn with_own_diagonal(algebra: Algebra, size: usize, weights: &[u16]) -> Vec<u16> {
    let mut table = weights.to_vec();
    for i in 0..size {
        table[i * size + i] = algebra.own();
    }
    table
}

/// Every entry reads the table of before the step, as all entries change at once; whether they may also change one
/// after another is the other side's affair.
fn step(algebra: Algebra, size: usize, before: &[u16], k: usize) -> Vec<u16> {
    let mut after = before.to_vec();
    for i in 0..size {
        for j in 0..size {
            let through_k = algebra.product(before[i * size + k], before[k * size + j]);
            after[i * size + j] = algebra.sum(before[i * size + j], through_k);
        }
    }
    after
}

/// Two bytes a word, low byte first.
pub fn bytes_of(words: &[u16]) -> Vec<u8> {
    words.iter().flat_map(|word| word.to_le_bytes()).collect()
}

pub fn words_of(bytes: &[u8]) -> Vec<u16> {
    let pairs = bytes.chunks_exact(2);
    pairs
        .map(|pair| u16::from_le_bytes([pair[0], pair[1]]))
        .collect()
}
