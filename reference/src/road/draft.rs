//! Right files as their lines, to be lent as they are or damaged.

use crate::random::Random;
use crate::road::style::{Arc, Style};
use crate::MAX_SIZE;

#[derive(Clone)]
pub struct Draft {
    pub points: u64,
    pub style: Style,
    pub lines: Vec<Vec<u8>>,
    /// The place of the `p` line.
    pub problem: usize,
    pub has_last_lf: bool,
}

/// Some of these are other numbers where high bits are dropped.
const LENGTHS: [u64; 18] = [
    0, 1, 2, 9, 10, 255, 256, 65533, 65534, 65535, 65536, 65537, 131071, 4294967295, 4294967296,
    4294967303, 8590000128, 9999999999,
];

/// Comments that a reader could take for another line, or stumble over.
const COMMENTS: [&[u8]; 14] = [
    b"c",
    b"c ",
    b"cat",
    b"c a comment",
    b"cc",
    b"c p sp 1 0",
    b"ca 1 1 1",
    b"cp sp 1 0",
    b"c\r",
    b"c\t-1",
    b"c\0\x80\xff",
    b"c12345678901",
    b"c  two  spaces  ",
    b"c0",
];

impl Draft {
    pub fn any(random: &mut Random) -> Draft {
        let points = any_points(random);
        let arcs = any_arcs(random, points);
        Draft::of(random, points, &arcs)
    }

    /// Another one if it has no arc, and so no line of each kind.
    pub fn need_arcs(&mut self, random: &mut Random) {
        while self.arc_places().is_empty() {
            *self = Draft::any(random);
        }
    }

    /// With comments in some files, in all places.
    pub fn of(random: &mut Random, points: u64, arcs: &[Arc]) -> Draft {
        let style = Style::any(random);
        let chances = random.pick(&[2, 5, 1000]);
        let mut lines = Vec::new();
        comments(random, chances, &mut lines);
        let problem = lines.len();
        lines.push(style.problem(random, points, arcs.len() as u64));
        for &arc in arcs {
            comments(random, chances, &mut lines);
            lines.push(style.arc(random, arc));
        }
        comments(random, chances, &mut lines);
        Draft {
            points,
            style,
            lines,
            problem,
            has_last_lf: !random.one_in(3),
        }
    }

    pub fn text(&self) -> Vec<u8> {
        let mut text = self.lines.join(&b'\n');
        if self.has_last_lf {
            text.push(b'\n');
        }
        text
    }

    /// These bytes in the place of its lines.
    pub fn set_text(&mut self, text: Vec<u8>) {
        (self.lines, self.has_last_lf) = (vec![text], false);
    }

    pub fn arc_places(&self) -> Vec<usize> {
        let places = self.problem + 1..self.lines.len();
        places.filter(|&at| self.lines[at][0] == b'a').collect()
    }

    pub fn any_arc_place(&self, random: &mut Random) -> usize {
        random.pick(&self.arc_places())
    }

    /// A place for one more line, from `first` on; often at an end.
    pub fn any_place_from(&self, random: &mut Random, first: usize) -> usize {
        let last = self.lines.len();
        match random.below(4) {
            0 => first,
            1 => last,
            _ => random.between(first, last),
        }
    }

    /// An empty line at the end is one only with its LF.
    pub fn insert(&mut self, at: usize, line: Vec<u8>) {
        self.has_last_lf |= line.is_empty() && at == self.lines.len();
        self.lines.insert(at, line);
    }
}

fn comments(random: &mut Random, chances: usize, lines: &mut Vec<Vec<u8>>) {
    while random.one_in(chances) {
        lines.push(comment(random));
    }
}

pub fn comment(random: &mut Random) -> Vec<u8> {
    if random.one_in(8) {
        let len = random.below(80);
        let bytes = random.bytes(len).into_iter();
        return [b'c']
            .into_iter()
            .chain(bytes.filter(|&byte| byte != b'\n'))
            .collect();
    }
    random.pick(&COMMENTS).to_vec()
}

pub fn any_points(random: &mut Random) -> u64 {
    let any = random.between(1, MAX_SIZE);
    let small = random.between(1, 12);
    let points = random.pick(&[1, 2, 3, small, small, small, 127, 128, any]);
    points as u64
}

/// Pairs come again, and points with themselves.
pub fn any_arcs(random: &mut Random, points: u64) -> Vec<Arc> {
    let any = random.below(60);
    let count = random.pick(&[0, 1, 2, 5, any, any, 2 * points as usize]);
    let mut arcs: Vec<Arc> = Vec::new();
    for _ in 0..count {
        let mut arc = [
            any_point(random, points),
            any_point(random, points),
            any_length(random),
        ];
        if !arcs.is_empty() && random.one_in(3) {
            let [from, to, _] = random.pick(&arcs);
            (arc[0], arc[1]) = (from, to);
        } else if random.one_in(6) {
            arc[1] = arc[0];
        }
        arcs.push(arc);
    }
    arcs
}

pub fn any_point(random: &mut Random, points: u64) -> u64 {
    let any = random.between(1, points as usize) as u64;
    random.pick(&[1, points, any, any, any])
}

fn any_length(random: &mut Random) -> u64 {
    match random.below(3) {
        0 => random.pick(&LENGTHS),
        1 => random.below(70_000) as u64,
        _ => random.below(100) as u64,
    }
}
