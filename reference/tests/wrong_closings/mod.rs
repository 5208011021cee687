//! Tables closed, right and wrong in one thing.

use reference::algebra::Algebra::{Distance, Reach};
use reference::elimination::eliminate;
use reference::job_text::Job;

pub fn closed(table: Job) -> Vec<u16> {
    eliminate(table.algebra, table.size, table.weights)
}

/// Before K4, min(x + y, 65535) was distance's product.
pub fn old_product(table: Job) -> Vec<u16> {
    if table.algebra != Distance {
        return closed(table);
    }
    let size = table.size;
    let mut words = own_diagonal(table);
    for k in 0..size {
        for at in 0..size * size {
            let (x, y) = (words[at / size * size + k], words[k * size + at % size]);
            words[at] = words[at].min(x.saturating_add(y));
        }
    }
    words
}

/// As it was lent, but for the diagonal.
pub fn own_diagonal(table: Job) -> Vec<u16> {
    let mut words = table.weights.to_vec();
    let diagonal = words.iter_mut().step_by(table.size + 1);
    diagonal.for_each(|word| *word = table.algebra.own());
    words
}

/// Closed, and then each word another by its place and itself.
pub fn changed(table: Job, change: impl Fn(usize, u16) -> u16) -> Vec<u16> {
    let words = closed(table).into_iter().enumerate();
    words.map(|(at, word)| change(at, word)).collect()
}

/// In reach, one entry of tables of five points alone.
pub fn wrong_at(table: Job, place: usize) -> Vec<u16> {
    let is_meant = table.algebra == Reach && table.size == 5;
    changed(table, |at, word| word ^ u16::from(is_meant && at == place))
}

/// The diagonal as it was lent, in the one algebra or in the others.
pub fn kept_diagonal(table: Job, in_reach: bool) -> Vec<u16> {
    let is_meant = (table.algebra == Reach) == in_reach;
    changed(table, |at, word| match at % (table.size + 1) {
        0 if is_meant => table.weights[at],
        _ => word,
    })
}
