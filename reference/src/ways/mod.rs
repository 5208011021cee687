//! The way itself, as K2 of document 02 wants it: for two points of a table, a way from the first to the second with no
//! point twice whose word is the closed entry. Which of several is free, so that a list is judged and not compared.

pub mod comparison;
pub mod counting;
pub mod damages;
pub mod judge;
pub mod refusal;
pub mod rust_search;
pub mod search;
pub mod wrong_parts;

use crate::algebra::Algebra;
use crate::elimination::stages;

/// What a call is lent to read, right or not.
#[derive(Clone, Copy, Debug)]
pub struct Question<'a> {
    pub algebra: u32,
    pub size: usize,
    pub links: &'a [u16],
    pub closed: &'a [u16],
    pub from: usize,
    pub to: usize,
}

impl Question<'_> {
    /// Where the algebra is known and the links fit.
    pub fn hall(&self) -> Hall {
        let algebra = Algebra::ALL[self.algebra as usize];
        Hall::new(algebra, self.size, self.links.to_vec())
    }
}

/// A table of links with the tables of its elimination.
pub struct Hall {
    pub algebra: Algebra,
    pub size: usize,
    pub links: Vec<u16>,
    stages: Vec<Vec<u16>>,
}

impl Hall {
    pub fn new(algebra: Algebra, size: usize, links: Vec<u16>) -> Hall {
        Hall {
            stages: stages(algebra, size, &links),
            algebra,
            size,
            links,
        }
    }

    pub fn closed(&self) -> &[u16] {
        &self.stages[self.size]
    }

    pub fn link(&self, from: usize, to: usize) -> u16 {
        assert!(from != to, "the diagonal is no link");
        self.links[from * self.size + to]
    }

    pub fn entry(&self, from: usize, to: usize) -> u16 {
        self.closed()[from * self.size + to]
    }

    pub fn has_way(&self, from: usize, to: usize) -> bool {
        self.entry(from, to) != self.algebra.none()
    }

    pub fn question(&self, from: usize, to: usize) -> Question<'_> {
        Question {
            algebra: self.algebra.number(),
            size: self.size,
            links: &self.links,
            closed: self.closed(),
            from,
            to,
        }
    }
}
