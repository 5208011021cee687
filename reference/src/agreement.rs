//! K6 of document 02, "Reach and distance must tell one story": where the same links are closed as reach and as distance or
//! steepest, reach is 1 exactly where the other is not none. It covers every entry of two closed tables and, where an array
//! closed one, those whose tick is past. The diagonals that are lent are free.

use crate::algebra::Algebra;
use crate::comparison::told_of;
use crate::elimination::lengths::{is_far, lengths, LARGEST_MEASURED};
use crate::elimination::tables::any_word;
use crate::job_text::Job;
use crate::random::Random;
use crate::tally::Kind;

/// Words for the links of a reach table are drawn from one of these.
const RANGES: [(usize, usize); 6] = [
    (0, 0),
    (0, 20),
    (0, 65534),
    (10_000, 40_000),
    (32_764, 32_771),
    (65_530, 65_534),
];

/// The same links in reach, or where they are in reach, in one of the others.
pub fn twin(random: &mut Random, table: Job) -> (Algebra, Vec<u16>) {
    let others = [Algebra::Distance, Algebra::Steepest];
    let (algebra, (first, last)) = match table.algebra {
        Algebra::Reach => (random.pick(&others), random.pick(&RANGES)),
        _ => (Algebra::Reach, (1, 1)),
    };
    let words = table.weights.iter().map(|&word| match word {
        word if word == table.algebra.none() => algebra.none(),
        _ => random.between(first, last) as u16,
    });
    let mut words: Vec<u16> = words.collect();
    for i in 0..table.size {
        let any = any_word(random, algebra);
        words[i * (table.size + 1)] = random.pick(&[algebra.own(), algebra.none(), any]);
    }
    (algebra, words)
}

/// Whether one of the tables is in reach, the other is not, and both have the same links.
pub fn have_same_links(one: &Job, other: &Job) -> bool {
    let is_link = |table: &Job, at: usize| table.weights[at] != table.algebra.none();
    let mut links = (0..one.weights.len()).filter(|at| at % (one.size + 1) != 0);
    (one.algebra == Algebra::Reach) != (other.algebra == Algebra::Reach)
        && one.size == other.size
        && links.all(|at| is_link(one, at) == is_link(other, at))
}

/// A table as a call left it.
#[derive(Clone, Copy)]
pub struct Closed<'a> {
    pub table: Job<'a>,
    pub words: &'a [u16],
    /// Entry (i, k) is past where i + k is below this, as an array sends out a job's words diagonal by diagonal.
    diagonals: usize,
}

impl<'a> Closed<'a> {
    /// By the elimination: all of it is past.
    pub fn whole(table: Job<'a>, words: &'a [u16]) -> Closed<'a> {
        Closed {
            table,
            words,
            diagonals: 2 * table.size - 1,
        }
    }

    /// By an array, so many ticks after the one before the first word left.
    pub fn part(table: Job<'a>, words: &'a [u16], ticks: usize) -> Closed<'a> {
        Closed {
            diagonals: ticks.min(2 * table.size - 1),
            ..Closed::whole(table, words)
        }
    }

    pub fn is_in_reach(&self) -> bool {
        self.table.algebra == Algebra::Reach
    }

    fn is_past(&self, at: usize) -> bool {
        at / self.table.size + at % self.table.size < self.diagonals
    }
}

/// Two closed tables of the same links.
pub struct Pair<'a> {
    reach: Closed<'a>,
    other: Closed<'a>,
}

impl<'a> Pair<'a> {
    /// Either may be the one in reach.
    pub fn new(one: Closed<'a>, other: Closed<'a>) -> Pair<'a> {
        match one.table.algebra {
            Algebra::Reach => Pair { reach: one, other },
            _ => Pair {
                reach: other,
                other: one,
            },
        }
    }

    /// Says which entry is wrong.
    pub fn check(&self) -> Result<(), String> {
        let mut past = (0..self.reach.words.len()).filter(|&at| self.is_past(at));
        match past.find(|&at| !self.agree(at)) {
            Some(at) => {
                let words = [self.reach.words[at], self.other.words[at]];
                let tables = [self.reach.table, self.other.table];
                let what = format!("K6: word {at}: {words:?} disagree");
                Err(told_of(&what, &tables))
            }
            None => Ok(()),
        }
    }

    fn agree(&self, at: usize) -> bool {
        let is_none = self.other.words[at] == self.other.table.algebra.none();
        self.reach.words[at] == u16::from(!is_none)
    }

    fn is_past(&self, at: usize) -> bool {
        self.reach.is_past(at) && self.other.is_past(at)
    }

    /// Whether the shortest way of some entry past is longer than its word says, in tables small enough to be measured.
    fn has_far(&self) -> bool {
        let Job { size, weights, .. } = self.other.table;
        let is_measured = self.is_in(Algebra::Distance) && size <= LARGEST_MEASURED;
        is_measured && {
            let mut lengths = lengths(size, weights).into_iter().enumerate();
            lengths.any(|(at, length)| is_far(length) && self.is_past(at))
        }
    }

    fn is_in(&self, algebra: Algebra) -> bool {
        self.other.table.algebra == algebra
    }

    /// Whether some point has this word with itself in reach, and none or another word in the other.
    fn has_on_diagonal(&self, reach: u16, is_none: bool) -> bool {
        let none = self.other.table.algebra.none();
        let mut places = (0..self.reach.words.len()).step_by(self.reach.table.size + 1);
        places.any(|at| {
            let other = self.other.table.weights[at];
            self.reach.table.weights[at] == reach && (other == none) == is_none
        })
    }
}

/// The kinds of pairs that every way to close them has to meet.
pub fn pair_kinds<'a>() -> [Kind<Pair<'a>>; 6] {
    [
        ("in distance", |pair| pair.is_in(Algebra::Distance)),
        ("in steepest", |pair| pair.is_in(Algebra::Steepest)),
        ("with a far entry", Pair::has_far),
        ("with an entry of none", |pair| {
            let mut past = (0..pair.reach.words.len()).filter(|&at| pair.is_past(at));
            past.any(|at| pair.reach.words[at] == 0)
        }),
        ("with 1 beside none on the diagonal", |pair| {
            pair.has_on_diagonal(1, true)
        }),
        ("with 0 beside another word on it", |pair| {
            pair.has_on_diagonal(0, false)
        }),
    ]
}

/// And those that arrays have to meet besides: why the claim asks for both ticks to be past.
pub fn part_kinds<'a>() -> [Kind<Pair<'a>>; 5] {
    [
        ("stopped among the words of a table", |pair| {
            let among = 1..2 * pair.reach.table.size - 1;
            let diagonals = [pair.reach, pair.other].map(|closed| closed.diagonals);
            diagonals.iter().any(|left| among.contains(left))
        }),
        ("an entry past in reach alone", |pair| {
            pair.reach.diagonals > pair.other.diagonals
        }),
        ("an entry past in the other alone", |pair| {
            pair.reach.diagonals < pair.other.diagonals
        }),
        ("all past for both", |pair| {
            let all = 2 * pair.reach.table.size - 1;
            pair.reach.diagonals.min(pair.other.diagonals) == all
        }),
        ("disagreement before both are past", |pair| {
            let mut early = (0..pair.reach.words.len()).filter(|&at| !pair.is_past(at));
            early.any(|at| !pair.agree(at))
        }),
    ]
}
