//! The comparison of ranges on right calls, and on such as are wrong in one thing: each has to be found.

use reference::calls::{Calls, Model};
use reference::comparison::Comparison;
use reference::ranges::refusal::checks;
use reference::ranges::{is_link, Bounds};

/// Whether the words at a place are inverted.
type IsInverted = fn(&Bounds, usize) -> bool;
/// The number, from what the elimination's checks say of each table, and whether some place is inverted.
type Number = fn([u32; 2], bool) -> u32;
/// Both results.
type Close = fn(&Bounds) -> [Vec<u16>; 2];

/// The model's call, its tests apart: each part can be another.
#[derive(Clone, Copy)]
struct Stub {
    /// The lengths of the results that test 4 looks at.
    lens: fn([usize; 2]) -> [usize; 2],
    is_inverted: IsInverted,
    number: Number,
    close: Close,
    /// What a refused call does to its results.
    refused: fn([&mut [u16]; 2]),
}

const RIGHT: Stub = Stub {
    lens: |lens| lens,
    is_inverted,
    number: in_order,
    close: |asked| asked.closed(),
    refused: |_| (),
};

fn worst_betters(asked: &Bounds, at: usize) -> bool {
    let [best, worst] = asked.tables;
    asked.algebra().betters(worst[at], best[at])
}

fn is_inverted(asked: &Bounds, at: usize) -> bool {
    is_link(asked.size, at) && worst_betters(asked, at)
}

fn in_order([of_best, of_worst]: [u32; 2], inverted: bool) -> u32 {
    let numbers = [of_best, of_worst, if inverted { 24 } else { 0 }];
    numbers.into_iter().find(|&number| number != 0).unwrap_or(0)
}

impl Calls for Stub {
    fn close_range(&self, asked: &Bounds, results: [&mut [u16]; 2]) -> u32 {
        let lens = results.each_ref().map(|result| result.len());
        let checks = checks(asked, (self.lens)(lens));
        let fits = checks.iter().all(|number| [0, 4, 5].contains(number));
        let inverted = fits && (0..asked.size.pow(2)).any(|at| (self.is_inverted)(asked, at));
        let number = (self.number)(checks, inverted);
        if number != 0 {
            (self.refused)(results);
            return number;
        }
        for (closed, result) in (self.close)(asked).iter().zip(results) {
            let words = result.iter_mut().zip(closed);
            words.for_each(|(word, &closed)| *word = closed);
        }
        0
    }
}

/// The first difference of some ranges and of damaged calls.
fn found(calls: impl Calls) -> Option<String> {
    let mut comparison = Comparison::new(calls, 53);
    let mut ranges = (0..400).map(|_| comparison.compare_any_range());
    let told = ranges.find_map(Result::err);
    told.or_else(|| comparison.compare_range_damages().err())
}

#[test]
fn right_calls_agree() {
    assert_eq!(found(Model), None);
    assert_eq!(found(RIGHT), None);
}

#[test]
fn wrong_tests_of_24_are_found() {
    let wrong: [(&str, IsInverted); 7] = [
        ("never", |_, _| false),
        ("the diagonal counts", worst_betters),
        ("the smaller is better", |asked, at| {
            is_link(asked.size, at) && asked.tables[1][at] < asked.tables[0][at]
        }),
        ("the larger is better", |asked, at| {
            is_link(asked.size, at) && asked.tables[1][at] > asked.tables[0][at]
        }),
        ("equal words count", |asked, at| {
            let is_equal = asked.tables[1][at] == asked.tables[0][at];
            is_link(asked.size, at) && is_equal || is_inverted(asked, at)
        }),
        ("the first link left out", |asked, at| {
            at > 1 && is_inverted(asked, at)
        }),
        ("the last link left out", |asked, at| {
            at + 2 < asked.size.pow(2) && is_inverted(asked, at)
        }),
    ];
    for (what, is_inverted) in wrong {
        let stub = Stub {
            is_inverted,
            ..RIGHT
        };
        assert!(found(stub).is_some(), "{what}");
    }
}

#[test]
fn another_order_of_tests_is_found() {
    let wrong: [(&str, Number); 5] = [
        ("24 before the worst's 5", |checks, inverted| match checks {
            [0, 5] if inverted => 24,
            _ => in_order(checks, inverted),
        }),
        ("24 first", |checks, inverted| match inverted {
            true => 24,
            false => in_order(checks, false),
        }),
        ("the worst table first", |[of_best, of_worst], inverted| {
            in_order([of_worst, of_best], inverted)
        }),
        ("both tables by number", |mut checks, inverted| {
            checks.sort();
            in_order(checks, inverted)
        }),
        ("no 5 for the worst", |[of_best, of_worst], inverted| {
            in_order([of_best, of_worst % 5], inverted)
        }),
    ];
    for (what, number) in wrong {
        let stub = Stub { number, ..RIGHT };
        assert!(found(stub).is_some(), "{what}");
    }
}

#[test]
fn the_length_of_the_other_result_is_found() {
    let wrong: [fn([usize; 2]) -> [usize; 2]; 2] = [|[best, _]| [best; 2], |[_, worst]| [worst; 2]];
    for lens in wrong {
        assert!(found(Stub { lens, ..RIGHT }).is_some());
    }
}

/// Tables between find those that are exchanged or too narrow, and the eliminations those that are too wide.
#[test]
fn wrong_results_are_found() {
    let wrong: [(&str, Close); 5] = [
        ("of a table between", |asked| {
            let [best, worst] = asked.closed();
            [worst, best]
        }),
        ("of a table between", |asked| {
            let [best, _] = asked.closed();
            [best.clone(), best]
        }),
        ("of a table between", |asked| {
            asked.tables.map(|table| table.to_vec())
        }),
        ("of the best result is", |asked| {
            let [best, worst] = asked.closed();
            [vec![asked.algebra().own(); best.len()], worst]
        }),
        ("of the worst result is", |asked| {
            let [best, worst] = asked.closed();
            [best, vec![asked.algebra().none(); worst.len()]]
        }),
    ];
    for (fault, close) in wrong {
        let told = found(Stub { close, ..RIGHT });
        assert!(told.is_some_and(|told| told.contains(fault)), "{fault}");
    }
}

#[test]
fn refused_calls_that_write_are_found() {
    fn flip(words: &mut [u16]) {
        words.iter_mut().for_each(|word| *word ^= 1);
    }
    let wrong: [fn([&mut [u16]; 2]); 2] = [|[best, _]| flip(best), |[_, worst]| flip(worst)];
    for refused in wrong {
        let told = found(Stub { refused, ..RIGHT });
        assert!(told.is_some_and(|told| told.contains("words changed")));
    }
}
