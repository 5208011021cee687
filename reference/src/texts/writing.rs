//! Job texts of lists: a list is drafted as lines of parts, which can be damaged, and these are written as bytes, with
//! the freedom that document 01 leaves to the writer.

use crate::algebra::Algebra;
use crate::job_text::JobList;
use crate::random::Random;

/// A line: its parts, which are written with spaces between them, and what stands right after the last.
#[derive(Clone, Debug, PartialEq, Eq)]
pub struct Line {
    pub parts: Vec<Vec<u8>>,
    pub end: Vec<u8>,
}

impl Line {
    pub fn new(parts: &[&str], end: &str) -> Line {
        Line {
            parts: parts.iter().map(|part| part.as_bytes().to_vec()).collect(),
            end: end.as_bytes().to_vec(),
        }
    }

    pub fn close() -> Line {
        Line::new(&[], ")")
    }
}

/// A text before it is written: its lines but the skipped ones.
pub type Draft = Vec<Line>;

/// How often a text departs from the shortest way to write it: never for 0, else one in so many chances.
#[derive(Clone, Copy)]
pub struct Freedom(pub usize);

impl Freedom {
    pub fn any(random: &mut Random) -> Freedom {
        Freedom(random.pick(&[0, 2, 5, 20]))
    }

    fn taken(self, random: &mut Random) -> bool {
        self.0 > 0 && random.one_in(self.0)
    }
}

pub fn text(random: &mut Random, freedom: Freedom, list: &JobList) -> Vec<u8> {
    let lines = draft(random, freedom, list);
    written(random, freedom, &lines)
}

/// The text of a drawn list, with one of these freedoms.
pub fn text_of(
    random: &mut Random,
    list: fn(&mut Random) -> JobList,
    freedoms: &[usize],
) -> Vec<u8> {
    let (freedom, list) = (Freedom(random.pick(freedoms)), list(random));
    text(random, freedom, &list)
}

pub fn draft(random: &mut Random, freedom: Freedom, list: &JobList) -> Draft {
    let order = numeral(random, freedom, list.order);
    let mut lines = vec![Line::new(&["(list", &order], "")];
    for job in list.jobs() {
        let points = numeral(random, freedom, job.size as u16);
        lines.push(Line::new(&["(job", &points, job.algebra.name()], ""));
        for words in job.weights.chunks_exact(job.size) {
            let mut row = Line::new(&["(row"], ")");
            for &weight in words {
                let part = word(random, freedom, job.algebra, weight);
                row.parts.push(part.into_bytes());
            }
            lines.push(row);
        }
        lines.push(Line::close());
    }
    lines.push(Line::close());
    lines
}

/// With leading zeros where freedom is taken.
fn numeral(random: &mut Random, freedom: Freedom, number: u16) -> String {
    let width = match freedom.taken(random) {
        true => random.between(1, 5),
        false => 1,
    };
    format!("{number:0width$}")
}

/// None is `-` outside reach, but its numeral where freedom is taken.
fn word(random: &mut Random, freedom: Freedom, algebra: Algebra, word: u16) -> String {
    let none = algebra != Algebra::Reach && word == algebra.none();
    match none && !freedom.taken(random) {
        true => "-".to_string(),
        false => numeral(random, freedom, word),
    }
}

/// Where freedom is taken, with more spaces, with skipped lines and without the last LF.
pub fn written(random: &mut Random, freedom: Freedom, lines: &[Line]) -> Vec<u8> {
    let mut text = Vec::new();
    for line in lines {
        while freedom.taken(random) && random.one_in(2) {
            text.extend(skipped_line(random));
        }
        text.extend(spaces(random, freedom, 0));
        for (at, part) in line.parts.iter().enumerate() {
            if at > 0 {
                text.extend(spaces(random, freedom, 1));
            }
            text.extend(part);
        }
        text.extend(&line.end);
        text.extend(spaces(random, freedom, 0));
        text.push(b'\n');
    }
    while freedom.taken(random) && random.one_in(2) {
        text.extend(skipped_line(random));
    }
    if freedom.taken(random) {
        text.pop();
    }
    text
}

/// At least `least`.
fn spaces(random: &mut Random, freedom: Freedom, least: usize) -> Vec<u8> {
    let more = match freedom.taken(random) {
        true => random.pick(&[1, 1, 2, 3, 12]),
        false => 0,
    };
    vec![b' '; least + more]
}

/// A line of spaces alone or of none, or a comment. Its LF is with it.
pub fn skipped_line(random: &mut Random) -> Vec<u8> {
    let mut line = vec![b' '; random.pick(&[0, 0, 1, 2, 9])];
    let comment: Vec<u8> = match random.below(6) {
        0 | 1 => Vec::new(),
        2 => b";".to_vec(),
        3 => random
            .pick(&[&b"; (row 1 2)"[..], b";)", b";;", b"; x\r"])
            .to_vec(),
        4 => [b"; ", &no_lf(random, 20)[..]].concat(),
        _ => [b";", &no_lf(random, 400)[..]].concat(),
    };
    line.extend(comment);
    line.push(b'\n');
    line
}

/// Up to `most` bytes of any kind but LF.
fn no_lf(random: &mut Random, most: usize) -> Vec<u8> {
    let len = random.below(most + 1);
    let mut bytes = random.bytes(len);
    bytes.retain(|&byte| byte != b'\n');
    bytes
}
