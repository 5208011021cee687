//! Belts whose time is only known within a range, as K9 of document 02 wants them: the best and the worst word for each link
//! give two closed tables, and what any table between is closed to lies between these.

pub mod comparison;
pub mod damages;
pub mod kinds;
pub mod refusal;
pub mod rust_range;
pub mod tables;

use crate::algebra::Algebra;
use crate::elimination::eliminate;

/// What a call is lent to read, right or not.
#[derive(Clone, Copy, Debug)]
pub struct Bounds<'a> {
    pub algebra: u32,
    pub size: usize,
    /// Of best words, and of worst words.
    pub tables: [&'a [u16]; 2],
}

impl Bounds<'_> {
    /// Where the algebra is known.
    pub fn algebra(&self) -> Algebra {
        Algebra::ALL[self.algebra as usize]
    }

    /// Where the tables fit.
    pub fn closed(&self) -> [Vec<u16>; 2] {
        let (algebra, size) = (self.algebra(), self.size);
        self.tables.map(|table| eliminate(algebra, size, table))
    }

    /// The links whose worst word betters the best one.
    pub fn inverted(&self) -> Vec<usize> {
        let [best, worst] = self.tables;
        let is_inverted = |&at: &usize| self.algebra().betters(worst[at], best[at]);
        links(self.size).filter(is_inverted).collect()
    }
}

/// The diagonal holds no links.
pub fn is_link(size: usize, at: usize) -> bool {
    at / size != at % size
}

/// The places of the links in a table.
pub fn links(size: usize) -> impl Iterator<Item = usize> {
    (0..size * size).filter(move |&at| is_link(size, at))
}

/// Whether a word is not better than the best one, nor worse than the worst one.
pub fn is_between(algebra: Algebra, [best, worst]: [u16; 2], word: u16) -> bool {
    !algebra.betters(word, best) && !algebra.betters(worst, word)
}
