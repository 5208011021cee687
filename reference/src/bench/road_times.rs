//! The reader of road files beside two in Rust: the plain one, line by line, and one walk over the bytes.

use crate::bench::timing::best_times;
use crate::calls::Calls;
use crate::host_call::Proved;
use crate::random::Random;
use crate::road::big::{all_pairs, many_arcs, mostly_comments};
use crate::road::{one_walk, reader, Answer, Read, WORDS};
use std::hint::black_box;

/// The files that are timed, with their names.
pub fn road_files(random: &mut Random) -> [(&'static str, Vec<u8>); 3] {
    [
        ("road, 100000 arcs", many_arcs(random, 100_000)),
        ("road, all pairs", all_pairs(random)),
        ("road, mostly comments", mostly_comments(random, 1_000_000)),
    ]
}

/// The times for a byte in nanoseconds: ours, the plain reader's and the one walk's.
pub fn road_times(file: &[u8]) -> [f64; 3] {
    let readers: [Read; 3] = [ours, reader::read, one_walk::read];
    let mut wanted = vec![0; WORDS];
    assert_eq!(reader::read(file, &mut wanted), Ok(128));
    let rounds = readers.map(|read| {
        let mut table = vec![1; WORDS];
        let answer = read(file, &mut table);
        assert!(
            answer == Ok(128) && table == wanted,
            "a contender's table is wrong"
        );
        Box::new(move || _ = black_box(read(black_box(file), &mut table))) as Box<dyn FnMut()>
    });
    best_times(rounds).map(|time| time / file.len() as f64)
}

fn ours(file: &[u8], table: &mut [u16]) -> Answer {
    let mut points = 0;
    match Proved.read(file, table, &mut points) {
        0 => Ok(points),
        number => Err(number),
    }
}
