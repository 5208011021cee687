//! The reference's ranges, held against what K9 of document 02 says apart from them: all tables between of small ranges, and
//! the order of the tests.

use reference::algebra::Algebra::{self, Reach};
use reference::elimination::eliminate;
use reference::elimination::tables::Kind;
use reference::random::Random;
use reference::ranges::damages::Call;
use reference::ranges::refusal::refusal;
use reference::ranges::rust_range::close_range;
use reference::ranges::tables::table_between;
use reference::ranges::{is_between, links, Bounds};
use std::mem::swap;

/// Every table between two whose diagonals are that of the best.
fn all_between(asked: &Bounds) -> Vec<Vec<u16>> {
    let [best, worst] = asked.tables;
    links(asked.size).fold(vec![best.to_vec()], |tables, at| {
        let words = best[at].min(worst[at])..=best[at].max(worst[at]);
        let with_words = tables.iter().flat_map(|table| {
            words.clone().map(move |word| {
                let mut table = table.clone();
                table[at] = word;
                table
            })
        });
        with_words.collect()
    })
}

/// Two tables of up to three words that follow each other, none among them or not.
fn small_tables(random: &mut Random, algebra: Algebra, size: usize) -> [Vec<u16>; 2] {
    let (first, words) = match algebra {
        Reach => (0, 2),
        _ => (random.pick(&[0, 32766, 65532, 65533]), 3),
    };
    let mut word = || (first + random.below(words)) as u16;
    let pairs = (0..size * size).map(|_| {
        let (x, y) = (word(), word());
        match algebra.betters(y, x) {
            true => (y, x),
            false => (x, y),
        }
    });
    let (best, worst) = pairs.unzip();
    [best, worst]
}

/// "each closed entry lies between the two given, and both ends are reached".
#[test]
fn the_results_are_the_ends_of_all_tables_between() {
    let mut random = Random::new(51);
    for round in 0..300 {
        let (algebra, size) = (Algebra::ALL[round % 3], 1 + round % 4 % 3);
        let tables = small_tables(&mut random, algebra, size);
        let asked = Bounds {
            algebra: algebra.number(),
            size,
            tables: tables.each_ref().map(|table| &table[..]),
        };
        let all: Vec<Vec<u16>> = all_between(&asked)
            .iter()
            .map(|table| eliminate(algebra, size, table))
            .collect();
        let [best, worst] = asked.closed();
        for (at, (&best, &worst)) in best.iter().zip(&worst).enumerate() {
            let entries: Vec<u16> = all.iter().map(|closed| closed[at]).collect();
            assert!(entries.contains(&best) && entries.contains(&worst));
            for word in entries {
                assert_eq!(algebra.sum(best, word), best, "{asked:?} {at}");
                assert_eq!(algebra.sum(word, worst), word, "{asked:?} {at}");
            }
        }
    }
}

/// The tables that the comparison draws lie between the two.
#[test]
fn drawn_tables_lie_between() {
    let mut random = Random::new(52);
    for round in 0..3_000 {
        let (algebra, size) = (Algebra::ALL[round % 3], 1 + round % 12);
        let call = Call::right(&mut random, algebra, size, Kind::ALL[round % 13]);
        let asked = call.bounds();
        let table = table_between(&mut random, &asked, round % 2 == 0);
        for at in links(size) {
            let ends = asked.tables.map(|table| table[at]);
            assert!(is_between(algebra, ends, table[at]), "{call:?} {table:?}");
        }
    }
}

/// The benchmark's contender gives the same, with and without an inverted link.
#[test]
fn the_contender_closes_alike() {
    let mut random = Random::new(54);
    let mut met = 0;
    for round in 0..3_000 {
        let (algebra, size) = (Algebra::ALL[round % 3], 1 + round % 12);
        let mut call = Call::right(&mut random, algebra, size, Kind::ALL[round % 13]);
        if random.one_in(2) {
            let at = random.below(size * size);
            let [best, worst] = &mut call.tables;
            swap(&mut best[at], &mut worst[at]);
        }
        let asked = call.bounds();
        let number = refusal(&asked, call.result_lens);
        let mut results = [vec![7; size * size], vec![7; size * size]];
        let wanted = match number {
            0 => asked.closed(),
            _ => results.clone(),
        };
        let [best, worst] = &mut results;
        let returned = close_range(&asked, [best, worst], &mut vec![0; size]);
        assert_eq!((returned, results), (number, wanted), "{call:?}");
        met += usize::from(number == 24);
    }
    assert!(met > 0, "no inverted link was met");
}

/// Algebra, size, lengths of the tables and of the results, the words of both tables at (1, 1) and at (0, 1), and the
/// refusal. All other words are 0.
type Card = (u32, usize, [usize; 4], [u16; 2], [u16; 2], u32);

/// Each test with all faults that come after it, and the neighbours of 24.
const CARDS: [Card; 22] = [
    (3, 0, [3, 3, 3, 3], [2, 2], [0, 1], 1),
    (0, 0, [3, 3, 3, 3], [2, 2], [0, 1], 2),
    (0, 129, [3, 3, 3, 3], [2, 2], [0, 1], 2),
    (0, 2, [3, 3, 3, 3], [2, 2], [0, 1], 3),
    (0, 2, [5, 3, 3, 3], [2, 2], [0, 1], 3),
    (0, 2, [4, 3, 3, 3], [2, 2], [0, 1], 4),
    (0, 2, [4, 3, 5, 3], [2, 2], [0, 1], 4),
    (0, 2, [4, 3, 4, 3], [2, 2], [0, 1], 5),
    (0, 2, [4, 3, 4, 3], [1, 2], [0, 1], 3),
    (0, 2, [4, 5, 4, 3], [1, 2], [0, 1], 3),
    (0, 2, [4, 4, 4, 3], [1, 2], [0, 1], 4),
    (0, 2, [4, 4, 4, 5], [1, 2], [0, 1], 4),
    (0, 2, [4, 4, 4, 4], [1, 2], [0, 1], 5),
    (0, 2, [4, 4, 4, 4], [0, 1], [0, 1], 24),
    (0, 2, [4, 4, 4, 4], [0, 1], [1, 1], 0),
    (0, 2, [4, 4, 4, 4], [0, 1], [1, 0], 0),
    (1, 2, [4, 4, 4, 4], [1, 0], [1, 0], 24),
    (1, 2, [4, 4, 4, 4], [1, 0], [0, 1], 0),
    (1, 2, [4, 4, 4, 4], [1, 0], [65535, 65534], 24),
    (2, 2, [4, 4, 4, 4], [1, 0], [32768, 32767], 24),
    (2, 2, [4, 4, 4, 4], [1, 0], [32767, 32768], 0),
    (2, 2, [4, 4, 4, 4], [1, 0], [65534, 65535], 0),
];

#[test]
fn border_calls() {
    for (algebra, size, lens, own, link, number) in CARDS {
        let tables = [0, 1].map(|which| {
            let words = [0, link[which], 0, own[which], 0];
            words[..lens[which]].to_vec()
        });
        let asked = Bounds {
            algebra,
            size,
            tables: tables.each_ref().map(|table| &table[..]),
        };
        assert_eq!(refusal(&asked, [lens[2], lens[3]]), number, "{asked:?}");
    }
}
