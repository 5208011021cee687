//! Times the proved elimination, ranges, array, bench, ways and reader of road files, through their C calls, beside Rust:
//! the same input, one run, one table. A benchmark, and no test.
//!
//! "rust" is the same algorithm in safe Rust; "other" is SSE2 by hand for the elimination, and the plain model of the
//! array, cell by cell, for the bench. For road files "rust" goes line by line, "other" is one walk over the bytes. For
//! ranges "rust" is one walk over the links and two eliminations, "other" is one elimination of ours. No buffer is cleared
//! between rounds; each contender writes its whole result.
//!
//! An array has 16 jobs of its own order or, where the row says so, of one point, which leaves little to read. It is
//! started once a round and run to its end, in one run or in runs of one tick each: every run of ours makes its tests,
//! and of jobs in reach test 5 reads all weights. The row-wise array in Rust makes no test. The jobs of a mixed list go
//! through the three algebras in turn.
//!
//! Where sizes are named, `benchmark SIZE..`, the elimination and ranges alone are timed, at those.

use reference::algebra::Algebra;
use reference::bench::array_times::array_times;
use reference::bench::range_times::range_times;
use reference::bench::road_times::{road_files, road_times};
use reference::bench::row_sheet::row_sheet;
use reference::bench::sheet::sheet;
use reference::bench::timing::{best_times, best_times_in};
use reference::calls::Calls;
use reference::elimination::bytes_of;
use reference::elimination::eliminate;
use reference::elimination::rust_loop::RustLoop;
use reference::elimination::sse2;
use reference::elimination::tables::{table, Kind};
use reference::host_call::{print_sheet, Proved, PAGE};
use reference::job_text::{JobList, MAX_JOBS};
use reference::random::Random;
use reference::systolic::state::total;
use reference::texts::lists::{list, Sizes};
use reference::texts::writing::{text, Freedom};
use reference::ways::judge::judge;
use reference::ways::rust_search::RustSearch;
use reference::ways::{Hall, Question};
use reference::MAX_SIZE;
use std::cell::RefCell;
use std::hint::black_box;

const SEED: u64 = 0x5EED_0F0A_7AB1_E002;
const ELIMINATION_SIZES: [usize; 7] = [2, 4, 8, 12, 16, 32, MAX_SIZE];
const RANGE_SIZES: [usize; 2] = [16, MAX_SIZE];
const WAY_SIZES: [usize; 3] = [8, 32, MAX_SIZE];
/// At least; one of the largest table takes seconds.
const WAY_ROUNDS: usize = 2;
/// Order, and size of each of the 16 jobs.
const LISTS: [(usize, usize); 3] = [(8, 8), (16, 16), (32, 32)];
const ARRAYS: [(usize, usize); 6] = [(8, 8), (16, 16), (31, 31), (32, 32), (31, 1), (32, 1)];
const SINGLE_TICKS: [(usize, usize); 6] = [(4, 4), (8, 8), (31, 31), (32, 32), (31, 1), (32, 1)];
/// Plain lists, then mixed ones.
const MIXES: [Mix; 4] = [
    ("reach", &[Algebra::Reach]),
    ("distance", &[Algebra::Distance]),
    ("steepest", &[Algebra::Steepest]),
    ("mixed", &Algebra::ALL),
];

/// The algebras that the jobs of a list go through in turn, with a name.
type Mix = (&'static str, &'static [Algebra]);

fn main() {
    let mut random = Random::new(SEED);
    println!(
        "{:<26}{:>5}  {:<9}{:>11}{:>11}{:>11}{:>11}{:>11}  unit",
        "what", "size", "algebra", "ours", "rust", "other", "ours/rust", "ours/other"
    );
    let named = sizes_named();
    let sizes = |usual: &[usize]| match named.is_empty() {
        true => usual.to_vec(),
        false => named.clone(),
    };
    for size in sizes(&ELIMINATION_SIZES) {
        for algebra in Algebra::ALL {
            eliminations(&mut random, algebra, size);
        }
    }
    for size in sizes(&RANGE_SIZES) {
        for algebra in Algebra::ALL {
            let times = range_times(&mut random, algebra, size);
            row("range", size, algebra.name(), &times, "ns a range");
        }
    }
    if !named.is_empty() {
        return;
    }
    for (order, size) in ARRAYS {
        arrays(&mut random, "array", order, size, 65535);
    }
    for (order, size) in SINGLE_TICKS {
        arrays(&mut random, "one tick a run", order, size, 1);
    }
    for (order, size) in LISTS {
        for mix in MIXES {
            // Words short enough for a text.
            let jobs = jobs_of(&mut random, mix, order, size, Kind::SmallWords);
            sheets(&mut random, mix.0, &jobs);
        }
    }
    for size in WAY_SIZES {
        for algebra in Algebra::ALL {
            all_ways(&mut random, algebra, size);
        }
    }
    roads(&mut random);
}

fn roads(random: &mut Random) {
    for (what, file) in road_files(random) {
        let times = road_times(&file);
        row(what, MAX_SIZE, "distance", &times, "ns a byte");
    }
}

/// The sizes that the command line names.
fn sizes_named() -> Vec<usize> {
    let size = |word: String| match word.parse() {
        Ok(size) if (1..=MAX_SIZE).contains(&size) => size,
        _ => panic!("a size is a number from 1 to {MAX_SIZE}: {word}"),
    };
    std::env::args().skip(1).map(size).collect()
}

/// The times are ours, rust's and, where there is one, the other's.
fn row(what: &str, size: usize, algebra: &str, times: &[f64], unit: &str) {
    let (ours, rust, other) = (times[0], times[1], times.get(2));
    let figures = [
        Some(ours),
        Some(rust),
        other.copied(),
        Some(ours / rust),
        other.map(|other| ours / other),
    ];
    let columns = figures.map(|figure| match figure {
        Some(figure) => format!("{figure:>11.2}"),
        None => format!("{:>11}", "-"),
    });
    let columns = columns.concat();
    println!("{what:<26}{size:>5}  {algebra:<9}{columns}  {unit}");
}

/// As many tables as fill the place of the largest, so that every size meets the same caches.
fn eliminations(random: &mut Random, algebra: Algebra, size: usize) {
    let count = (MAX_SIZE / size) * (MAX_SIZE / size);
    let (mut weights, mut closures) = (Vec::new(), Vec::new());
    for _ in 0..count {
        let words = table(random, algebra, size, Kind::SmallWords);
        weights.extend(bytes_of(&words));
        closures.extend(bytes_of(&eliminate(algebra, size, &words)));
    }
    let results = RefCell::new(vec![0; weights.len()]);
    let over_all = |eliminate: &mut dyn FnMut(&[u8], &mut [u8])| {
        let len = 2 * size * size;
        let mut results = results.borrow_mut();
        for (weights, result) in weights.chunks_exact(len).zip(results.chunks_exact_mut(len)) {
            eliminate(black_box(weights), black_box(result));
        }
    };
    let mut rust_loop = RustLoop::new(size);
    let mut ours = |weights: &[u8], result: &mut [u8]| {
        let number = Proved.eliminate(algebra.number(), size, weights, result);
        assert_eq!(number, 0);
    };
    let mut rust =
        |weights: &[u8], result: &mut [u8]| rust_loop.eliminate(algebra, size, weights, result);
    let mut other =
        |weights: &[u8], result: &mut [u8]| sse2::eliminate(algebra, size, weights, result);
    let contenders: [&mut dyn FnMut(&[u8], &mut [u8]); 3] = [&mut ours, &mut rust, &mut other];
    let times = best_times(contenders.map(|contender| {
        over_all(contender);
        assert!(
            *results.borrow() == closures,
            "a contender's result is wrong"
        );
        Box::new(|| over_all(contender)) as Box<dyn FnMut()>
    }));
    row(
        "elimination",
        size,
        algebra.name(),
        &times.map(|time| time / count as f64),
        "ns a table",
    );
}

/// A contender of the ways: the number of points in the list, or of the refusal.
type Search<'a> = &'a mut dyn FnMut(&Question, &mut [u16]) -> Result<usize, u32>;

/// All pairs of points of one table, each in a whole call; an entry of none is refused.
fn all_ways(random: &mut Random, algebra: Algebra, size: usize) {
    let links = table(random, algebra, size, Kind::SmallWords);
    let hall = &Hall::new(algebra, size, links);
    let mut rust_search = RustSearch::new(size);
    let mut ours = |asked: &Question, list: &mut [u16]| {
        let mut length = 0;
        match Proved.way(asked, list, &mut length) {
            0 => Ok(length),
            number => Err(number),
        }
    };
    let mut rust = |asked: &Question, list: &mut [u16]| rust_search.way(asked, list);
    let contenders: [Search; 2] = [&mut ours, &mut rust];
    let rounds = contenders.map(|contender| {
        over_pairs(hall, contender, |from, to, answer| {
            let right = match answer {
                Ok(list) => judge(hall, from, to, list).is_ok(),
                Err(number) => number == 20 && !hall.has_way(from, to),
            };
            assert!(right, "a contender's way is wrong");
        });
        let round = || over_pairs(hall, contender, |_, _, answer| _ = black_box(answer));
        Box::new(round) as Box<dyn FnMut()>
    });
    let times = best_times_in(WAY_ROUNDS, rounds);
    let scale = (size * size * 1000) as f64;
    let times = times.map(|time| time / scale);
    row("way", size, algebra.name(), &times, "us a way");
}

fn over_pairs(hall: &Hall, search: Search, look: impl Fn(usize, usize, Result<&[u16], u32>)) {
    let mut list = vec![0; hall.size];
    for from in 0..hall.size {
        for to in 0..hall.size {
            let answer = search(black_box(&hall.question(from, to)), black_box(&mut list));
            look(from, to, answer.map(|length| &list[..length]));
        }
    }
}

/// 16 jobs of one size.
fn jobs_of(random: &mut Random, (_, turn): Mix, order: usize, size: usize, kind: Kind) -> JobList {
    let turn = turn.iter().copied().cycle();
    let algebras: Vec<Algebra> = turn.take(MAX_JOBS).collect();
    let mut jobs = list(random, &algebras, size, Sizes::Full, &[kind]);
    jobs.order = order as u16;
    jobs
}

/// In runs of `allowance` ticks.
fn arrays(random: &mut Random, what: &str, order: usize, size: usize, allowance: u16) {
    let what = match size {
        1 => format!("{what}, 1 point"),
        _ => what.to_string(),
    };
    for mix in MIXES {
        let jobs = jobs_of(random, mix, order, size, Kind::FullRange);
        let steps = (total(order, MAX_JOBS) * order * order) as f64;
        let times = array_times(&jobs, allowance).map(|time| time / steps);
        row(&what, order, mix.0, &times, "ns a cell and tick");
    }
}

fn sheets(random: &mut Random, name: &str, jobs: &JobList) {
    let text = text(random, Freedom(0), jobs);
    let mut page = vec![0; PAGE];
    let length = print_sheet(&text, &mut page);
    let printed = sheet(&text);
    assert!(
        page[..length] == printed && row_sheet(&text) == printed,
        "a contender's sheet is wrong"
    );
    let times = best_times([
        Box::new(|| assert_eq!(print_sheet(black_box(&text), &mut page), length)),
        Box::new(|| assert_eq!(row_sheet(black_box(&text)).len(), length)),
        Box::new(|| assert_eq!(sheet(black_box(&text)).len(), length)),
    ]);
    let times = times.map(|time| time / 1000.0);
    row("bench", jobs.order.into(), name, &times, "us a text");
}
