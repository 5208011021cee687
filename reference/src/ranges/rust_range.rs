//! A contender of the benchmark: one walk over the links, then two eliminations in place, in safe Rust.

use crate::algebra::Algebra;
use crate::elimination::rust_loop::{close, joined};
use crate::ranges::Bounds;

/// Nothing but 24 is tested. `via` has a word for each point.
pub fn close_range(asked: &Bounds, results: [&mut [u16]; 2], via: &mut [u16]) -> u32 {
    // One match here, and none in the loops: each arm is compiled for its own sum and product.
    match asked.algebra() {
        Algebra::Reach => close_both(asked, results, via, u16::max, u16::min),
        Algebra::Distance => close_both(asked, results, via, u16::min, joined),
        Algebra::Steepest => close_both(asked, results, via, u16::min, u16::max),
    }
}

fn close_both(
    asked: &Bounds,
    results: [&mut [u16]; 2],
    via: &mut [u16],
    sum: impl Fn(u16, u16) -> u16,
    product: impl Fn(u16, u16) -> u16,
) -> u32 {
    if has_inverted(asked, &sum) {
        return 24;
    }
    for (table, result) in asked.tables.into_iter().zip(results) {
        result.copy_from_slice(table);
        let diagonal = result.iter_mut().step_by(asked.size + 1);
        diagonal.for_each(|word| *word = asked.algebra().own());
        close(result, via, &sum, &product);
    }
    0
}

/// After each place on the diagonal come as many links as there are points, and none after the last. All are looked at, so
/// that it can be done on vectors.
fn has_inverted(asked: &Bounds, sum: impl Fn(u16, u16) -> u16) -> bool {
    let [best, worst] = asked.tables.map(|table| table.chunks(asked.size + 1));
    best.zip(worst).fold(false, |inverted, (best, worst)| {
        let links = best[1..].iter().zip(&worst[1..]);
        links.fold(inverted, |inverted, (&best, &worst)| {
            inverted | (sum(best, worst) != best)
        })
    })
}
