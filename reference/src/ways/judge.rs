//! Whether a list is a way that K2 of document 02 allows, from the links alone: it says what is wrong, and prefers none
//! of the right ones.

use crate::ways::Hall;

#[derive(Clone, Copy, Debug, PartialEq, Eq)]
pub enum Fault {
    Empty,
    /// A word that is no point of the table.
    Outside,
    Begin,
    End,
    Repeat,
    /// The product of the links is another word than the closed entry.
    Word(u16),
}

/// The first fault in the order of the enum.
pub fn judge(hall: &Hall, from: usize, to: usize, list: &[u16]) -> Result<(), Fault> {
    let points: Vec<usize> = list.iter().map(|&word| usize::from(word)).collect();
    let (Some(&first), Some(&last)) = (points.first(), points.last()) else {
        return Err(Fault::Empty);
    };
    if points.iter().any(|&point| point >= hall.size) {
        return Err(Fault::Outside);
    }
    if first != from {
        return Err(Fault::Begin);
    }
    if last != to {
        return Err(Fault::End);
    }
    if has_repeat(&points) {
        return Err(Fault::Repeat);
    }
    match word(hall, &points) {
        word if word == hall.entry(from, to) => Ok(()),
        word => Err(Fault::Word(word)),
    }
}

fn has_repeat(points: &[usize]) -> bool {
    (0..points.len()).any(|at| points[..at].contains(&points[at]))
}

/// The word of a list without repeats, which is the own word where it has one point.
pub fn word(hall: &Hall, points: &[usize]) -> u16 {
    let links = points.windows(2).map(|pair| hall.link(pair[0], pair[1]));
    links.fold(hall.algebra.own(), |word, link| {
        hall.algebra.product(word, link)
    })
}
