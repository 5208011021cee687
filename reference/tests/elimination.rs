//! The reference itself, held against what document 01 says apart from the elimination: the bench cards and ways.

use reference::algebra::Algebra::{self, Distance, Reach, Steepest};
use reference::elimination::lengths::{has_far_and_none, lengths, word_of};
use reference::elimination::rust_loop::{joined, RustLoop};
use reference::elimination::sse2;
use reference::elimination::tables::{table, Kind};
use reference::elimination::{bytes_of, eliminate, words_of};
use reference::job_text::Job;
use reference::random::Random;

const NONE: u16 = 65535;

#[test]
fn bench_cards() {
    assert_eq!(eliminate(Distance, 1, &[7]), [0]); // B1
    assert_eq!(eliminate(Reach, 1, &[0]), [1]); // B2
    let links = [0, 4, 9, NONE, 0, 3, 1, NONE, 0];
    let distance = [0, 4, 7, 4, 0, 3, 1, 5, 0];
    let steepest = [0, 4, 4, 3, 0, 3, 1, 4, 0];
    assert_eq!(eliminate(Distance, 3, &links), distance); // B3
    assert_eq!(eliminate(Steepest, 3, &links), steepest); // B4
    let links = [0, 1, 1, 0, 0, 1, 1, 0, 0];
    assert_eq!(eliminate(Reach, 3, &links), [1; 9]); // B5
    for (second, wanted) in [(25534, 65534), (25535, 65534)] {
        let links = [0, 40000, NONE, NONE, 0, second, NONE, NONE, 0];
        assert_eq!(eliminate(Distance, 3, &links)[2], wanted); // B6, B7
        assert_eq!(eliminate(Distance, 3, &links)[6], NONE);
    }
    // Steepest keeps 65534 as an ordinary word.
    let links = [0, 40000, NONE, NONE, 0, 65534, NONE, NONE, 0];
    assert_eq!(eliminate(Steepest, 3, &links)[2], 65534);
}

/// What K4 says of distance, apart from any product: a pair's word is its length, held at 65534, and none where no way
/// joins the two.
#[test]
fn distance_is_the_length_held_at_65534() {
    let mut random = Random::new(3);
    let mut met = 0;
    for round in 0..3_000 {
        let size = 1 + round % 12;
        let kind = random.pick(&Kind::ALL);
        let weights = table(&mut random, Distance, size, kind);
        let lengths = lengths(size, &weights);
        let wanted: Vec<u16> = lengths.iter().map(|&length| word_of(length)).collect();
        assert_eq!(eliminate(Distance, size, &weights), wanted, "{weights:?}");
        met += usize::from(has_far_and_none(&lengths));
    }
    assert!(met > 100, "far pairs beside none were met {met} times");
}

/// The benchmark's contenders close tables of every kind alike, and not only those that they are timed on.
#[test]
fn the_contenders_close_alike() {
    let mut random = Random::new(4);
    for size in (1..=34).chain([64, 128]) {
        for algebra in Algebra::ALL {
            for kind in Kind::ALL {
                let weights = table(&mut random, algebra, size, kind);
                let (bytes, closed) = (bytes_of(&weights), eliminate(algebra, size, &weights));
                let mut result = vec![0; bytes.len()];
                RustLoop::new(size).eliminate(algebra, size, &bytes, &mut result);
                assert_eq!(words_of(&result), closed, "{algebra:?} {weights:?}");
                sse2::eliminate(algebra, size, &bytes, &mut result);
                assert_eq!(words_of(&result), closed, "{algebra:?} {weights:?}");
            }
        }
    }
}

/// The product in the form of the benchmark's loops is the same.
#[test]
fn the_loops_product_is_the_same() {
    let border = [
        0, 1, 2, 255, 256, 25534, 25535, 25536, 32766, 32767, 32768, 65532, 65533, 65534, NONE,
    ];
    for x in border.into_iter().chain((0..NONE).step_by(251)) {
        for y in 0..=NONE {
            for (x, y) in [(x, y), (y, x)] {
                assert_eq!(joined(x, y), Distance.product(x, y), "{x} {y}");
            }
        }
    }
}

/// The sum of the words of all ways to `to`, repeats allowed, that begin with a list which ends at `at` and has the word
/// `word`, and go on with at most `left` links.
fn best(table: Job, at: usize, to: usize, word: u16, left: usize) -> u16 {
    let Job { algebra, size, .. } = table;
    let here = if at == to { word } else { algebra.none() };
    let onward = (0..size).filter(|_| left > 0).map(|next| {
        let link = match next == at {
            true => algebra.own(),
            false => table.weights[at * size + next],
        };
        best(table, next, to, algebra.product(word, link), left - 1)
    });
    onward.fold(here, |sum, word| algebra.sum(sum, word))
}

/// One link more than a way without a repeated point can have.
#[test]
fn each_entry_is_the_best_of_all_ways() {
    let mut random = Random::new(1);
    for size in [1, 2, 3, 4] {
        for algebra in Algebra::ALL {
            for kind in Kind::ALL {
                let weights = &table(&mut random, algebra, size, kind);
                let closure = eliminate(algebra, size, weights);
                let table = Job::new(algebra, size, weights);
                for (at, &entry) in closure.iter().enumerate() {
                    let best = best(table, at / size, at % size, algebra.own(), size);
                    assert_eq!(entry, best, "{algebra:?} {weights:?} {at}");
                }
            }
        }
    }
}
