//! What can be wrong with a call that asks for a way.

use crate::algebra::Algebra;
use crate::damages::Damage;
use crate::elimination::damages::{wrong_algebra, wrong_word};
use crate::elimination::tables::{table, Kind};
use crate::random::Random;
use crate::ways::wrong_parts::*;
use crate::ways::{Hall, Question};
use crate::MAX_SIZE;

/// From the last test to the first.
pub const DAMAGES: [Damage<Call>; 10] = [
    ("no way", 20, |_, _, _| {}),
    ("closed table", 19, |random, call, _| {
        damage_closed(random, call)
    }),
    ("to", 19, |random, call, right| {
        call.to = outside(random, right.size, right.to);
    }),
    ("from", 19, |random, call, right| {
        call.from = outside(random, right.size, right.from);
    }),
    ("length of the list", 19, |random, call, right| {
        call.list_len = random.not(right.size, &[right.size.pow(2)]);
    }),
    ("a word above 1", 5, |random, call, right| {
        let (place, word) = wrong_word(random, right.size);
        call.links[place] = word;
    }),
    ("length of the closed table", 4, |random, call, right| {
        resize(random, right.size, &mut call.closed);
    }),
    ("length of the links", 3, |random, call, right| {
        resize(random, right.size, &mut call.links);
    }),
    ("size", 2, |random, call, _| damage_size(random, call)),
    ("algebra", 1, |random, call, right| {
        call.algebra = wrong_algebra(random, right.algebra);
    }),
];

/// A call that holds its own tables, to be damaged.
#[derive(Clone, Debug)]
pub struct Call {
    pub algebra: u32,
    pub size: usize,
    pub links: Vec<u16>,
    pub closed: Vec<u16>,
    pub from: usize,
    pub to: usize,
    pub list_len: usize,
}

impl Call {
    pub fn question(&self) -> Question<'_> {
        Question {
            algebra: self.algebra,
            size: self.size,
            links: &self.links,
            closed: &self.closed,
            from: self.from,
            to: self.to,
        }
    }
}

/// Only reach has words that are refused. Without a way, the call is right apart from that.
pub fn right_call(random: &mut Random, in_reach: bool, no_way: bool) -> Call {
    loop {
        let algebra = match in_reach {
            true => Algebra::Reach,
            false => random.pick(&Algebra::ALL),
        };
        let largest = random.pick(&[2, 4, 4, 4, 8, 8, 8, 16, 16, 32, MAX_SIZE]);
        let size = random.between(1, largest);
        let kind = random.pick(&Kind::ALL);
        let links = table(random, algebra, size, kind);
        let hall = Hall::new(algebra, size, links);
        let pairs = (0..size * size).map(|at| (at / size, at % size));
        let fit: Vec<_> = pairs
            .filter(|&(from, to)| hall.has_way(from, to) != no_way)
            .collect();
        if !fit.is_empty() {
            let (from, to) = random.pick(&fit);
            return Call {
                algebra: algebra.number(),
                size,
                closed: hall.closed().to_vec(),
                links: hall.links,
                from,
                to,
                list_len: size,
            };
        }
    }
}
