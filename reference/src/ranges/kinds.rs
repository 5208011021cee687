//! The kinds of ranges, of tables between and of refused calls that have to be met.

use crate::algebra::Algebra;
use crate::ranges::damages::Call;
use crate::ranges::{is_between, is_link, links, Bounds};
use crate::tally::Kind;
use crate::MAX_SIZE;

/// An accepted range with its results, and a table between with what it is closed to.
pub struct Met<'a> {
    pub asked: Bounds<'a>,
    pub results: [&'a [u16]; 2],
    pub table: &'a [u16],
    pub closed: &'a [u16],
}

impl Met<'_> {
    /// Whether some link has these words, best and worst.
    fn has_link(&self, is_meant: impl Fn(u16, u16) -> bool) -> bool {
        let [best, worst] = self.asked.tables;
        links(self.asked.size).any(|at| is_meant(best[at], worst[at]))
    }

    /// Whether some point has these words with itself: best and worst, and that of the table between.
    fn has_own(&self, is_meant: impl Fn(Algebra, [u16; 2], u16) -> bool) -> bool {
        let mut places = (0..self.table.len()).step_by(self.asked.size + 1);
        places.any(|at| {
            let words = self.asked.tables.map(|table| table[at]);
            is_meant(self.asked.algebra(), words, self.table[at])
        })
    }

    /// Whether some entry has these words: of the results, and of the closed table between.
    fn has_entry(&self, is_meant: impl Fn(u16, u16, u16) -> bool) -> bool {
        let [best, worst] = self.results;
        (0..best.len()).any(|at| is_meant(best[at], worst[at], self.closed[at]))
    }
}

/// Of accepted ranges.
pub fn kinds_in<'a>(algebra: Algebra) -> Vec<Kind<Met<'a>>> {
    match algebra {
        Algebra::Reach => kinds().to_vec(),
        Algebra::Distance | Algebra::Steepest => [&kinds()[..], &wide_kinds()].concat(),
    }
}

fn kinds<'a>() -> [Kind<Met<'a>>; 8] {
    [
        ("1 point", |met| met.asked.size == 1),
        ("128 points", |met| met.asked.size == MAX_SIZE),
        ("a link of one word", |met| met.has_link(|x, y| x == y)),
        ("a link of two", |met| met.has_link(|x, y| x != y)),
        ("inverted on the diagonal", |met| {
            met.has_own(|algebra, [best, worst], _| algebra.betters(worst, best))
        }),
        ("not between on the diagonal", |met| {
            met.has_own(|algebra, ends, word| !is_between(algebra, ends, word))
        }),
        ("joined at best alone", |met| {
            let none = met.asked.algebra().none();
            met.has_entry(|best, worst, _| best != none && worst == none)
        }),
        ("entries at either end", |met| {
            met.has_entry(|best, worst, word| word == best && word != worst)
                && met.has_entry(|best, worst, word| word == worst && word != best)
        }),
    ]
}

/// Where there are more than two words.
fn wide_kinds<'a>() -> [Kind<Met<'a>>; 6] {
    [
        ("a link of 0 and 1", |met| {
            met.has_link(|x, y| (x, y) == (0, 1))
        }),
        ("a link of 0 and none", |met| {
            met.has_link(|x, y| (x, y) == (0, 65535))
        }),
        ("a link of 1 and 65534", |met| {
            met.has_link(|x, y| (x, y) == (1, 65534))
        }),
        ("a link of 65534 and none", |met| {
            met.has_link(|x, y| (x, y) == (65534, 65535))
        }),
        ("an entry of 65534 at worst alone", |met| {
            met.has_entry(|best, worst, _| best < worst && worst == 65534)
        }),
        ("an entry at neither end", |met| {
            met.has_entry(|best, worst, word| best < word && word < worst)
        }),
    ]
}

/// Of calls with one damage, by their refusal.
pub fn damaged_kinds(number: u32) -> &'static [Kind<Call>] {
    match number {
        2 => &SIZES,
        3 | 4 => &LENGTHS,
        5 => &PLACES,
        24 => &INVERTED,
        _ => &[("any", |_| true)],
    }
}

const SIZES: [Kind<Call>; 3] = [
    ("0", |call| call.size == 0),
    ("129", |call| call.size == MAX_SIZE + 1),
    ("over 32 bits", |call| call.size > u32::MAX as usize),
];

const LENGTHS: [Kind<Call>; 3] = [
    ("0", |call| call.lens().contains(&0)),
    ("one short", |call| {
        call.lens().contains(&(call.size * call.size - 1))
    }),
    ("one long", |call| {
        call.lens().contains(&(call.size * call.size + 1))
    }),
];

/// The place of the one word above 1.
const PLACES: [Kind<Call>; 2] = [
    ("on the diagonal", |call| {
        !is_link(call.size, foreign_place(call))
    }),
    ("off it", |call| is_link(call.size, foreign_place(call))),
];

/// The links that are inverted, mostly one.
const INVERTED: [Kind<Call>; 8] = [
    ("in reach", |call| call.algebra == 0),
    ("in distance", |call| call.algebra == 1),
    ("in steepest", |call| call.algebra == 2),
    ("the first link", |call| call.bounds().inverted() == [1]),
    ("the last", |call| {
        call.bounds().inverted() == [call.size * call.size - 2]
    }),
    ("one after the diagonal", |call| is_inverted_beside(call, 1)),
    ("one before it", |call| is_inverted_beside(call, call.size)),
    ("several", |call| call.bounds().inverted().len() > 1),
];

fn foreign_place(call: &Call) -> usize {
    let mut tables = call.tables.iter();
    let place = tables.find_map(|table| table.iter().position(|&word| word > 1));
    place.expect("a word above 1")
}

/// Whether one link alone is inverted, so far after the diagonal, and neither the first nor the last.
fn is_inverted_beside(call: &Call, after: usize) -> bool {
    let inner = 2..call.size * call.size - 2;
    let inverted = call.bounds().inverted();
    matches!(inverted[..], [at] if at % (call.size + 1) == after && inner.contains(&at))
}
