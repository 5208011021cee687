//! All ways without repeats of a small table, one after another.

use crate::ways::judge::word;
use crate::ways::Hall;

/// The ways from `from` to `to` with no point twice whose word is the closed entry.
pub fn right_ways(hall: &Hall, from: usize, to: usize) -> Vec<Vec<u16>> {
    let mut right = Vec::new();
    extend(hall, to, &mut vec![from], &mut right);
    right
}

/// Tries every way that begins with `points`. One that is at `to` goes no further, as it would have to come again.
fn extend(hall: &Hall, to: usize, points: &mut Vec<usize>, right: &mut Vec<Vec<u16>>) {
    let at = points[points.len() - 1];
    if at == to {
        if word(hall, points) == hall.entry(points[0], to) {
            right.push(points.iter().map(|&point| point as u16).collect());
        }
        return;
    }
    for next in 0..hall.size {
        if !points.contains(&next) {
            points.push(next);
            extend(hall, to, points, right);
            points.pop();
        }
    }
}
