//! Single damages of a drafted text that mostly leave forms, but with other numbers or in another number. Where the
//! text has no line that a damage is for, it stays as it is.

use crate::job_text::MAX_JOBS;
use crate::random::Random;
use crate::texts::odd_parts::*;
use crate::texts::writing::{Draft, Line};

/// The lines whose first part is `name`; so too the next.
fn lines_named(lines: &[Line], name: &[u8]) -> Vec<usize> {
    let is_named = |line: &Line| line.parts.first().is_some_and(|part| part == name);
    (0..lines.len())
        .filter(|&at| is_named(&lines[at]))
        .collect()
}

pub fn line_named(random: &mut Random, lines: &[Line], name: &[u8]) -> Option<usize> {
    let at = lines_named(lines, name);
    (!at.is_empty()).then(|| random.pick(&at))
}

/// Puts `part` in the place of a row's word, or of the number on a list's or a job's line.
fn set_part(random: &mut Random, lines: &mut [Line], name: &[u8], part: &[u8]) {
    if let Some(at) = line_named(random, lines, name) {
        set_part_of(random, &mut lines[at], part);
    }
}

fn set_part_of(random: &mut Random, line: &mut Line, part: &[u8]) {
    let is_row = line.parts.first().is_some_and(|name| name == b"(row");
    let last = if is_row { line.parts.len() - 1 } else { 1 };
    let place = random.between(1, last.max(1));
    if let Some(old) = line.parts.get_mut(place) {
        *old = part.to_vec();
    }
}

/// In a row of a job in reach; where there is none, a job is made one.
fn set_reach_word(random: &mut Random, lines: &mut Draft, part: &[u8]) {
    if rows_in_reach(lines).is_empty() {
        to_reach(random, lines);
    }
    let rows = rows_in_reach(lines);
    if !rows.is_empty() {
        let at = random.pick(&rows);
        set_part_of(random, &mut lines[at], part);
    }
}

fn rows_in_reach(lines: &[Line]) -> Vec<usize> {
    let mut in_reach = false;
    let mut rows = Vec::new();
    for (at, line) in lines.iter().enumerate() {
        match line.parts.first().map(Vec::as_slice) {
            Some(b"(job") => in_reach = line.parts.get(2).is_some_and(|name| name == b"reach"),
            Some(b"(row") if in_reach => rows.push(at),
            _ => {}
        }
    }
    rows
}

pub fn reach_word(random: &mut Random, lines: &mut Draft) {
    let word = random.pick(&ABOVE_ONE).as_bytes();
    set_reach_word(random, lines, word);
}

pub fn odd_word(random: &mut Random, lines: &mut Draft) {
    let part = random.pick(&ODD_PARTS).as_bytes();
    set_part(random, lines, b"(row", part);
}

/// Some job, whose words and `-` may be those of another algebra.
pub fn to_reach(random: &mut Random, lines: &mut Draft) {
    if let Some(at) = line_named(random, lines, b"(job") {
        if let Some(part) = lines[at].parts.get_mut(2) {
            *part = b"reach".to_vec();
        }
    }
}

pub fn order(random: &mut Random, lines: &mut Draft) {
    let order = random.pick(&NO_ORDERS).as_bytes();
    if let Some(part) = lines.first_mut().and_then(|line| line.parts.get_mut(1)) {
        *part = order.to_vec();
    }
}

/// The order and one more too, where the order can be read.
pub fn size(random: &mut Random, lines: &mut Draft) {
    let order = lines.first().and_then(|line| line.parts.get(1));
    let order: Option<usize> = order.and_then(|part| std::str::from_utf8(part).ok()?.parse().ok());
    let near = match order {
        Some(order) if random.one_in(2) => (order + random.between(0, 1)).to_string(),
        _ => random.pick(&NO_SIZES).to_string(),
    };
    set_part(random, lines, b"(job", near.as_bytes());
}

/// A numeral that is right in itself but may not fit the rows.
pub fn other_size(random: &mut Random, lines: &mut Draft) {
    let size = random.between(1, 8).to_string();
    set_part(random, lines, b"(job", size.as_bytes());
}

pub fn no_jobs(random: &mut Random, lines: &mut Draft) {
    lines.truncate(1);
    if !random.one_in(8) {
        lines.push(Line::close());
    }
}

/// A job's line with all up to its closing bracket.
fn a_job(random: &mut Random, lines: &[Line]) -> Option<(usize, Vec<Line>)> {
    let first = line_named(random, lines, b"(job")?;
    let rows = lines[first..]
        .iter()
        .position(|line| line.parts.is_empty())?;
    Some((first, lines[first..=first + rows].to_vec()))
}

/// 17 or a few more.
pub fn too_many_jobs(random: &mut Random, lines: &mut Draft) {
    let jobs = lines_named(lines, b"(job").len();
    let wanted = random.pick(&[MAX_JOBS + 1, MAX_JOBS + 1, MAX_JOBS + 2, 2 * MAX_JOBS]);
    for _ in jobs..wanted {
        if let Some((first, job)) = a_job(random, lines) {
            lines.splice(first..first, job);
        }
    }
}

/// And one of them damaged: the 17th, or one before or after it.
pub fn odd_job_too_many(random: &mut Random, lines: &mut Draft) {
    too_many_jobs(random, lines);
    let jobs = lines_named(lines, b"(job");
    let job = random.pick(&[MAX_JOBS - 1, MAX_JOBS, MAX_JOBS, MAX_JOBS, MAX_JOBS + 1]);
    if let Some(&at) = jobs.get(job) {
        let parts = random.pick(&[
            &NUMERALS[..],
            &NO_SIZES,
            &LONG_NUMERALS,
            &ODD_PARTS,
            &ALGEBRAS,
        ]);
        let part = random.pick(parts);
        let place = random.pick(&[1, 1, 1, 2]);
        if let Some(old) = lines[at].parts.get_mut(place) {
            *old = part.into();
        }
    }
}

/// Border numerals too, which are not all too long or too large.
pub fn long_numeral(random: &mut Random, lines: &mut Draft) {
    let name = random.pick(&[&b"(list"[..], b"(job", b"(row"]);
    let numerals = random.pick(&[&NUMERALS[..], &LONG_NUMERALS, &LONG_NUMERALS]);
    let numeral = random.pick(numerals).as_bytes();
    set_part(random, lines, name, numeral);
}

/// In a row it is wrong only in reach.
pub fn dash(random: &mut Random, lines: &mut Draft) {
    set_reach_word(random, lines, b"-");
}

pub fn row_length(random: &mut Random, lines: &mut Draft) {
    let Some(at) = line_named(random, lines, b"(row") else {
        return;
    };
    let row = &mut lines[at].parts;
    match random.below(4) {
        0 => row.push(b"1".to_vec()),
        1 => row.extend_from_within(1..),
        2 => row.truncate(random.between(1, row.len())),
        _ => drop(row.pop()),
    }
}

pub fn empty_row(random: &mut Random, lines: &mut Draft) {
    if let Some(at) = line_named(random, lines, b"(row") {
        lines[at].parts.truncate(1);
    }
}

/// Cuts the text between two lines.
pub fn end_early(random: &mut Random, lines: &mut Draft) {
    let left = random.below(lines.len().max(1));
    lines.truncate(left);
}

/// With a form, or with the whole text once more.
pub fn go_on_after_end(random: &mut Random, lines: &mut Draft) {
    match random.below(3) {
        0 => lines.extend_from_within(..),
        1 => lines.push(Line::close()),
        _ => lines.push(any_line(random)),
    }
}
