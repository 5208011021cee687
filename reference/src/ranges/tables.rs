//! Random ranges, and tables that lie in them.

use crate::algebra::Algebra;
use crate::elimination::tables::{any_word, table, Kind};
use crate::random::Random;
use crate::ranges::{links, Bounds};
use std::mem::swap;

/// Tables of best and of worst words, drawn from two kinds of links; in some most links have one word. The diagonals hold
/// any words, as they must not count.
pub fn tables(random: &mut Random, algebra: Algebra, size: usize, kind: Kind) -> [Vec<u16>; 2] {
    let mut best = table(random, algebra, size, kind);
    let other = random.pick(&Kind::ALL);
    let mut worst = table(random, algebra, size, other);
    let chances = random.pick(&[1, 2, size * size]);
    for at in links(size) {
        if !random.one_in(chances) {
            worst[at] = best[at];
        } else if algebra.betters(worst[at], best[at]) {
            swap(&mut best[at], &mut worst[at]);
        }
    }
    [best, worst]
}

/// A table between: each link has one of its two words, or where not `at_ends` any word between. The diagonal is free.
pub fn table_between(random: &mut Random, asked: &Bounds, at_ends: bool) -> Vec<u16> {
    let [best, worst] = asked.tables;
    let mut words: Vec<u16> = (0..best.len())
        .map(|_| any_word(random, asked.algebra()))
        .collect();
    for at in links(asked.size) {
        let (low, high) = (best[at].min(worst[at]), best[at].max(worst[at]));
        words[at] = match at_ends {
            true => random.pick(&[low, high]),
            false => random.between(low.into(), high.into()) as u16,
        };
    }
    words
}
