//! Random tables, each of one kind of links: the kinds meet different ends of the algebras, and some have long ways, many
//! equal ones, or rings of links that cost nothing, in which a search may go round.

use crate::algebra::Algebra;
use crate::random::Random;

#[derive(Clone, Copy, Debug, PartialEq, Eq)]
pub enum Kind {
    /// About two links a point: long ways, and pairs with none.
    Sparse,
    /// A link for every pair, with many ties.
    SmallWords,
    /// Words that wrap in 16 bits where two are added, and some that just do not.
    NearTop,
    /// About two links a point, of which two to seven in a row are held: far pairs beside pairs with none.
    LongLinks,
    AllNone,
    AllZero,
    FullRange,
    /// In distance and steepest many links of word 0, in reach many of word 1.
    ManyOwn,
    /// One to three words in all.
    FewWords,
    /// Each point has a link to the next in a shuffled order, in some tables one back too.
    Chain,
    /// So too, and the last has one to the first.
    Ring,
    /// A link both ways between neighbours in rows and columns.
    Grid,
    /// A chain whose words reach the top together, or just not, and other links beside it.
    HeldSums,
}

impl Kind {
    pub const ALL: [Kind; 13] = [
        Kind::Sparse,
        Kind::SmallWords,
        Kind::NearTop,
        Kind::LongLinks,
        Kind::AllNone,
        Kind::AllZero,
        Kind::FullRange,
        Kind::ManyOwn,
        Kind::FewWords,
        Kind::Chain,
        Kind::Ring,
        Kind::Grid,
        Kind::HeldSums,
    ];
}

/// A table of links, and its points in the order in which they were laid out.
pub struct Layout {
    pub links: Vec<u16>,
    pub order: Vec<usize>,
}

/// A table of `size` times `size` words of the algebra. Its diagonal holds any words, as it must not count.
pub fn layout(random: &mut Random, algebra: Algebra, size: usize, kind: Kind) -> Layout {
    let order = shuffled(random, size);
    let mut links = match kind {
        Kind::ManyOwn => many_own(random, algebra, size),
        Kind::FewWords => few_words(random, algebra, size),
        Kind::Chain => chain(random, algebra, &order, false),
        Kind::Ring => chain(random, algebra, &order, true),
        Kind::Grid => grid(random, algebra, &order),
        Kind::HeldSums => held_sums(random, algebra, &order),
        _ => {
            let words = (0..size * size).map(|_| word(random, algebra, size, kind));
            words.collect()
        }
    };
    for i in 0..size {
        links[i * size + i] = any_word(random, algebra);
    }
    Layout { links, order }
}

pub fn table(random: &mut Random, algebra: Algebra, size: usize, kind: Kind) -> Vec<u16> {
    layout(random, algebra, size, kind).links
}

pub(crate) fn shuffled(random: &mut Random, size: usize) -> Vec<usize> {
    let mut order: Vec<usize> = (0..size).collect();
    for at in 1..size {
        order.swap(at, random.below(at + 1));
    }
    order
}

/// About two own words a point, or every second word.
fn many_own(random: &mut Random, algebra: Algebra, size: usize) -> Vec<u16> {
    let chances = random.pick(&[2, size.div_ceil(2)]);
    let others = match algebra {
        Algebra::Reach => [0; 4],
        Algebra::Distance | Algebra::Steepest => random.pick(&[[1, 2, 3, 4], [65535; 4]]),
    };
    let word = |_| match random.one_in(chances) {
        true => algebra.own(),
        false => random.pick(&others),
    };
    (0..size * size).map(word).collect()
}

fn few_words(random: &mut Random, algebra: Algebra, size: usize) -> Vec<u16> {
    let words = match algebra {
        Algebra::Reach => random.pick(&[[1, 1, 1], [0, 1, 1], [0, 0, 1]]),
        Algebra::Distance | Algebra::Steepest => random.pick(&[
            [7, 7, 7],
            [1, 1, 2],
            [1, 2, 3],
            [0, 1, 2],
            [1, 65535, 65535],
            [1, 2, 65535],
        ]),
    };
    (0..size * size).map(|_| random.pick(&words)).collect()
}

/// How the words of a table's links are drawn: 127 of them stay below the top.
fn bounds(random: &mut Random, algebra: Algebra) -> (usize, usize) {
    match algebra {
        Algebra::Reach => (1, 1),
        Algebra::Distance | Algebra::Steepest => random.pick(&[(0, 0), (0, 1), (5, 5), (1, 500)]),
    }
}

fn chain(random: &mut Random, algebra: Algebra, order: &[usize], closed: bool) -> Vec<u16> {
    let size = order.len();
    let mut links = vec![algebra.none(); size * size];
    let (first, last) = bounds(random, algebra);
    let both_ways = random.one_in(3);
    for at in 0..size - usize::from(!closed) {
        let (from, to) = (order[at], order[(at + 1) % size]);
        links[from * size + to] = random.between(first, last) as u16;
        if both_ways {
            links[to * size + from] = random.between(first, last) as u16;
        }
    }
    links
}

/// The last row may be shorter than the others.
fn grid(random: &mut Random, algebra: Algebra, order: &[usize]) -> Vec<u16> {
    let size = order.len();
    let mut links = vec![algebra.none(); size * size];
    let width = random.pick(&[2, size.isqrt(), size.isqrt() + 1]).max(1);
    let (first, last) = bounds(random, algebra);
    for at in 0..size {
        let right = (at % width + 1 < width).then_some(at + 1);
        for next in [right, Some(at + width)].into_iter().flatten() {
            if next < size {
                let (a, b) = (order[at], order[next]);
                links[a * size + b] = random.between(first, last) as u16;
                links[b * size + a] = random.between(first, last) as u16;
            }
        }
    }
    links
}

/// In distance the chain's words make 65533 to 65536 from end to end.
fn held_sums(random: &mut Random, algebra: Algebra, order: &[usize]) -> Vec<u16> {
    let size = order.len();
    let mut links = vec![algebra.none(); size * size];
    let mut left = random.between(65533, 65536);
    for at in 1..size {
        let mean = left / (size - at);
        let word = match (algebra, at + 1 < size) {
            (Algebra::Reach, _) => 1,
            (Algebra::Steepest, _) => random.between(65530, 65535),
            (Algebra::Distance, true) => random.between(mean / 2, mean),
            (Algebra::Distance, false) => left.min(65535),
        };
        left = left.saturating_sub(word);
        links[order[at - 1] * size + order[at]] = word as u16;
    }
    for _ in 0..random.pick(&[0, 0, 1, size]) {
        let (from, to) = (random.below(size), random.below(size));
        links[from * size + to] = match algebra {
            Algebra::Reach => 1,
            Algebra::Distance | Algebra::Steepest => random.between(32000, 65535) as u16,
        };
    }
    links
}

pub(crate) fn any_word(random: &mut Random, algebra: Algebra) -> u16 {
    match algebra {
        Algebra::Reach => random.below(2) as u16,
        Algebra::Distance | Algebra::Steepest => random.word(),
    }
}

fn word(random: &mut Random, algebra: Algebra, size: usize, kind: Kind) -> u16 {
    match (kind, algebra) {
        (Kind::AllNone, _) => algebra.none(),
        (Kind::AllZero, _) => 0,
        (Kind::FullRange, _) => any_word(random, algebra),
        (Kind::Sparse | Kind::LongLinks, _) if !random.one_in(size.div_ceil(2)) => algebra.none(),
        (Kind::Sparse | Kind::LongLinks, Algebra::Reach) => 1,
        (Kind::Sparse, _) => random.below(4000) as u16,
        (Kind::LongLinks, _) => random.between(10_000, 40_000) as u16,
        (Kind::SmallWords, Algebra::Reach) => u16::from(random.one_in(4)),
        (Kind::SmallWords, _) => random.below(20) as u16,
        (Kind::NearTop, Algebra::Reach) => u16::from(!random.one_in(4)),
        (Kind::NearTop, _) => near_top(random),
        _ => unreachable!("laid out as a whole"),
    }
}

fn near_top(random: &mut Random) -> u16 {
    let little = random.below(8) as u16;
    match random.below(8) {
        0 => little,
        1 | 2 => 65535 - little,
        3 => 21845 + little,
        4 => 32767 - little,
        _ => 32764 + little,
    }
}
