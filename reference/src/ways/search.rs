//! A way for each entry, taken from the elimination's own steps: it shows that what the judge asks for is there.

use crate::ways::Hall;

/// A way from `from` to `to` whose word is the closed entry.
pub fn way(hall: &Hall, from: usize, to: usize) -> Vec<u16> {
    let mut way = vec![from as u16];
    go_on(hall, from, to, hall.size, &mut way);
    way
}

/// Adds the points after `i` of a way to `j` whose word is entry (i, j) after the first `k` steps; between its ends it
/// has points below `k` alone.
///
/// No point comes twice: a step that changed the entry bettered it, and if the parts before and after the step's own
/// point had a point in common, the way without the loop between would have been as good before the step.
fn go_on(hall: &Hall, i: usize, j: usize, mut k: usize, way: &mut Vec<u16>) {
    let entry = |k: usize| hall.stages[k][i * hall.size + j];
    while k > 0 && entry(k) == entry(k - 1) {
        k -= 1;
    }
    if k > 0 {
        let via = k - 1;
        go_on(hall, i, via, via, way);
        go_on(hall, via, j, via, way);
    } else if i != j {
        way.push(j as u16);
    }
}
