//! What can be wrong with a call that closes a range.

use crate::algebra::Algebra;
use crate::damages::{Damage, Set};
use crate::elimination::damages::{wrong_algebra, wrong_size, wrong_word};
use crate::elimination::tables::Kind;
use crate::random::Random;
use crate::ranges::tables::tables;
use crate::ranges::{links, Bounds};
use crate::MAX_SIZE;

/// A call that holds its own tables, to be damaged.
#[derive(Clone, Debug)]
pub struct Call {
    pub algebra: u32,
    pub size: usize,
    pub tables: [Vec<u16>; 2],
    pub result_lens: [usize; 2],
}

impl Call {
    pub fn right(random: &mut Random, algebra: Algebra, size: usize, kind: Kind) -> Call {
        Call {
            algebra: algebra.number(),
            size,
            tables: tables(random, algebra, size, kind),
            result_lens: [size * size; 2],
        }
    }

    pub fn lens(&self) -> [usize; 4] {
        let ([best, worst], [best_result, worst_result]) = (&self.tables, self.result_lens);
        [best.len(), worst.len(), best_result, worst_result]
    }

    pub fn bounds(&self) -> Bounds<'_> {
        Bounds {
            algebra: self.algebra,
            size: self.size,
            tables: self.tables.each_ref().map(|table| &table[..]),
        }
    }
}

/// From the last test to the first.
pub const DAMAGES: [Damage<Call>; 9] = [
    ("an inverted link", 24, invert),
    ("a worst word above 1", 5, |random, call, _| {
        damage_word(random, call, 1);
    }),
    ("length of the worst result", 4, |random, call, right| {
        call.result_lens[1] = random.not(right.result_lens[1], &[right.size]);
    }),
    ("length of the worst table", 3, |random, call, _| {
        resize(random, call, 1);
    }),
    ("a best word above 1", 5, |random, call, _| {
        damage_word(random, call, 0);
    }),
    ("length of the best result", 4, |random, call, right| {
        call.result_lens[0] = random.not(right.result_lens[0], &[right.size]);
    }),
    ("length of the best table", 3, |random, call, _| {
        resize(random, call, 0);
    }),
    ("size", 2, damage_size),
    ("algebra", 1, |random, call, right| {
        call.algebra = wrong_algebra(random, right.algebra);
    }),
];

/// The one that a call with all of them is refused with. Two tests share a number, so that the place of a damage tells.
pub fn first_number(set: &Set<Call>) -> u32 {
    let (_, number, _) = set.last().expect("no set is empty");
    *number
}

/// Only reach has words that are refused, and only two points or more have a link.
pub fn right_call(random: &mut Random, in_reach: bool, has_link: bool) -> Call {
    let algebra = match in_reach {
        true => Algebra::Reach,
        false => random.pick(&Algebra::ALL),
    };
    let largest = random.pick(&[4, 4, 4, 16, 16, MAX_SIZE]);
    let size = random.between(1 + usize::from(has_link), largest);
    let kind = random.pick(&Kind::ALL);
    Call::right(random, algebra, size, kind)
}

/// One link, and in some calls the tables are exchanged besides.
fn invert(random: &mut Random, call: &mut Call, _: &Call) {
    if random.one_in(4) {
        call.tables.swap(0, 1);
    }
    let (better, other) = match call.bounds().algebra() {
        Algebra::Reach => (1, 0),
        Algebra::Distance | Algebra::Steepest => {
            let low = random.pick(&[0, 1, 255, 32767, 65534]);
            let any = random.between(low + 1, 65535);
            (low, random.pick(&[low + 1, 65535, any]))
        }
    };
    let at = any_link(random, call.size);
    call.tables[0][at] = other as u16;
    call.tables[1][at] = better as u16;
}

/// Often the first, the last or one beside the diagonal.
fn any_link(random: &mut Random, n: usize) -> usize {
    let after = random.below(n - 1) * (n + 1) + 1;
    let before = random.between(1, n - 1) * (n + 1) - 1;
    let links: Vec<usize> = links(n).collect();
    let anywhere = random.pick(&links);
    random.pick(&[1, n * n - 2, after, before, anywhere])
}

fn damage_word(random: &mut Random, call: &mut Call, which: usize) {
    let (place, word) = wrong_word(random, call.size);
    call.tables[which][place] = word;
}

/// The length of a line in the place of a table's too.
fn resize(random: &mut Random, call: &mut Call, which: usize) {
    let table = &mut call.tables[which];
    let len = random.not(table.len(), &[call.size]);
    table.resize(len, 1);
}

/// The lengths stay as they are, or fit the new size, or fit what 64 bits make of its square.
fn damage_size(random: &mut Random, call: &mut Call, _: &Call) {
    call.size = wrong_size(random, call.size);
    let wrapped = call.size.wrapping_mul(call.size);
    if wrapped <= 100_000 && random.one_in(2) {
        for table in &mut call.tables {
            table.resize(wrapped, 0);
        }
        call.result_lens = [wrapped; 2];
    }
}
