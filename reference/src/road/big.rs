//! Files of many arcs and of long comments: for the benchmark, for the longest that the program takes, and longer ones.

use crate::random::Random;
use crate::road::style::{Arc, Style};
use crate::MAX_SIZE;
use std::iter;

const POINTS: u64 = MAX_SIZE as u64;

/// 128 points, and as many arcs as wanted between any of them.
pub fn many_arcs(random: &mut Random, count: usize) -> Vec<u8> {
    let arcs = (0..count).map(|_| {
        let [from, to] = [(); 2].map(|_| random.between(1, MAX_SIZE) as u64);
        [from, to, random.below(70_000) as u64]
    });
    let arcs: Vec<Arc> = arcs.collect();
    with_arcs(random, &arcs)
}

/// 128 points, and each pair of two once.
pub fn all_pairs(random: &mut Random) -> Vec<u8> {
    let pairs = (1..=POINTS).flat_map(|from| (1..=POINTS).map(move |to| [from, to]));
    let other = pairs.filter(|[from, to]| from != to);
    let arcs = other.map(|[from, to]| [from, to, random.below(10_000) as u64]);
    let arcs: Vec<Arc> = arcs.collect();
    with_arcs(random, &arcs)
}

/// Comments of a usual length, with an arc now and then, up to `len` bytes or a little more.
pub fn mostly_comments(random: &mut Random, len: usize) -> Vec<u8> {
    let mut lines = Vec::new();
    let mut arcs = 0;
    while lines.len() < len {
        lines.extend(comment(random.between(20, 100)));
        if random.one_in(20) {
            let [from, to] = [(); 2].map(|_| random.between(1, MAX_SIZE) as u64);
            lines.extend(Style::PLAIN.arc(random, [from, to, 12]));
            lines.push(b'\n');
            arcs += 1;
        }
    }
    let mut file = Style::PLAIN.problem(random, POINTS, arcs);
    file.push(b'\n');
    file.extend(lines);
    file
}

/// Comments of a million bytes each before, between and after a few arcs.
pub fn long_comments(random: &mut Random, count: usize) -> Vec<u8> {
    let mut file = comment(1_000_000);
    file.extend(b"p sp 3 2\n");
    for at in 0..count {
        if at == 1 || at + 1 == count {
            file.extend(b"a 1 3 65535\n");
        }
        file.extend(comment(random.between(1_000_000, 1_000_100)));
    }
    file
}

/// Made exactly `len` bytes long by a last comment, with its LF or without.
pub fn padded(mut file: Vec<u8>, len: usize, has_last_lf: bool) -> Vec<u8> {
    let rest = len - file.len();
    file.extend(comment(if has_last_lf { rest } else { rest + 1 }));
    file.truncate(len);
    file
}

/// A line of `len` bytes, its LF among them.
fn comment(len: usize) -> Vec<u8> {
    let words = b" a 1 2 3 p sp 1 1";
    let text = iter::once(&b'c').chain(words.iter().cycle());
    text.take(len - 1).chain(b"\n").copied().collect()
}

fn with_arcs(random: &mut Random, arcs: &[Arc]) -> Vec<u8> {
    let mut file = Style::PLAIN.problem(random, POINTS, arcs.len() as u64);
    file.push(b'\n');
    for &arc in arcs {
        file.extend(Style::PLAIN.arc(random, arc));
        file.push(b'\n');
    }
    file
}
