//! Lengths of shortest ways in numbers that nothing holds, and the word that K4 gives them: they know no product.

use crate::algebra::Algebra;

/// K4: "65534 or more".
const FAR: u64 = 65534;
/// In tables of more points the lengths take long to find.
pub const LARGEST_MEASURED: usize = 12;

/// For each pair of points the length of its shortest way, nothing where no way joins them. Every link is tried behind
/// every way found, until no way gets shorter.
pub fn lengths(size: usize, weights: &[u16]) -> Vec<Option<u64>> {
    let mut lengths = vec![None; size * size];
    for from in 0..size {
        let found = &mut lengths[from * size..(from + 1) * size];
        found[from] = Some(0);
        while shorten(size, weights, found) {}
    }
    lengths
}

/// Whether a way of those that begin with one point got shorter, or was found.
fn shorten(size: usize, weights: &[u16], found: &mut [Option<u64>]) -> bool {
    let mut shorter = false;
    for (at, &word) in weights.iter().enumerate() {
        let (middle, to) = (at / size, at % size);
        if middle == to || word == Algebra::Distance.none() {
            continue;
        }
        let Some(length) = found[middle].map(|length| length + u64::from(word)) else {
            continue;
        };
        if found[to].is_none_or(|old| length < old) {
            found[to] = Some(length);
            shorter = true;
        }
    }
    shorter
}

/// The word of distance for a length.
pub fn word_of(length: Option<u64>) -> u16 {
    match length {
        Some(length) => length.min(FAR) as u16,
        None => Algebra::Distance.none(),
    }
}

/// Whether the way is longer than its word says.
pub fn is_far(length: Option<u64>) -> bool {
    length.is_some_and(|length| length > FAR)
}

/// Whether a table has a pair that is far, and one without a way.
pub fn has_far_and_none(lengths: &[Option<u64>]) -> bool {
    lengths.iter().copied().any(is_far) && lengths.iter().any(Option::is_none)
}
