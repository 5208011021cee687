//! Single damages of a drafted text that mostly make a line no form, or not the form due. A text of no lines stays as
//! it is.

use crate::algebra::Algebra;
use crate::random::Random;
use crate::texts::line_damage::line_named;
use crate::texts::odd_parts::*;
use crate::texts::writing::{Draft, Line};

fn any_at(random: &mut Random, lines: &[Line]) -> Option<usize> {
    (!lines.is_empty()).then(|| random.below(lines.len()))
}

/// Puts `part` in the place of one after the name, or after all where there is none.
fn put_part(random: &mut Random, line: &mut Line, part: &str) {
    let part = part.as_bytes().to_vec();
    match line.parts.len() {
        0 | 1 => line.parts.push(part),
        len => line.parts[random.between(1, len - 1)] = part,
    }
}

fn take_part(random: &mut Random, line: &mut Line) {
    if !line.parts.is_empty() {
        line.parts.remove(random.below(line.parts.len()));
    }
}

/// Before the name too.
fn insert_part(random: &mut Random, line: &mut Line, part: &str) {
    let place = random.between(0, line.parts.len());
    line.parts.insert(place, part.as_bytes().to_vec());
}

/// One of several damages in a line: any part in the place of another, one more or one less, and now and then another
/// end or name.
pub fn mix_part(random: &mut Random, line: &mut Line) {
    let part = any_part(random);
    match random.below(12) {
        0 | 1 => take_part(random, line),
        2 => insert_part(random, line, part),
        3 => line.end = random.pick(&ENDS).into(),
        4 => set_name(random, line),
        _ => put_part(random, line, part),
    }
}

/// So too, but a form mostly stays a form.
pub fn mix_number(random: &mut Random, line: &mut Line) {
    let number = any_number(random);
    match random.below(6) {
        0 if line.parts.len() > 1 => drop(line.parts.pop()),
        1 => line.parts.push(number.into()),
        _ => put_part(random, line, number),
    }
}

fn set_name(random: &mut Random, line: &mut Line) {
    let name = random.pick(&NAMES).into();
    match line.parts.first_mut() {
        Some(part) => *part = name,
        None => line.parts.push(name),
    }
}

pub fn odd_part(random: &mut Random, lines: &mut Draft) {
    if let Some(at) = any_at(random, lines) {
        let part = random.pick(&ODD_PARTS);
        put_part(random, &mut lines[at], part);
    }
}

/// The `-` of a row, which is right outside reach, where it is none.
pub fn odd_dash(random: &mut Random, lines: &mut Draft) {
    let name = random.pick(&[&b"(list"[..], b"(job"]);
    if let Some(at) = line_named(random, lines, name) {
        put_part(random, &mut lines[at], "-");
    }
}

pub fn odd_name(random: &mut Random, lines: &mut Draft) {
    if let Some(at) = any_at(random, lines) {
        set_name(random, &mut lines[at]);
    }
}

pub fn odd_end(random: &mut Random, lines: &mut Draft) {
    if let Some(at) = any_at(random, lines) {
        lines[at].end = random.pick(&ENDS).into();
    }
}

pub fn odd_algebra(random: &mut Random, lines: &mut Draft) {
    if let Some(at) = line_named(random, lines, b"(job") {
        if let Some(part) = lines[at].parts.get_mut(2) {
            *part = random.pick(&ALGEBRAS).into();
        }
    }
}

/// As before K8: an algebra on the list's line, none on a job's, or both.
pub fn old_form(random: &mut Random, lines: &mut Draft) {
    let (on_list, on_job) = random.pick(&[(true, false), (false, true), (true, true)]);
    if let Some(at) = line_named(random, lines, b"(job").filter(|_| on_job) {
        lines[at].parts.truncate(2);
    }
    if let Some(at) = line_named(random, lines, b"(list").filter(|_| on_list) {
        let algebra = random.pick(&Algebra::ALL);
        lines[at].parts.push(algebra.name().into());
    }
}

pub fn drop_part(random: &mut Random, lines: &mut Draft) {
    if let Some(at) = any_at(random, lines) {
        take_part(random, &mut lines[at]);
    }
}

pub fn add_part(random: &mut Random, lines: &mut Draft) {
    if let Some(at) = any_at(random, lines) {
        let part = any_part(random);
        insert_part(random, &mut lines[at], part);
    }
}

pub fn drop_line(random: &mut Random, lines: &mut Draft) {
    if let Some(at) = any_at(random, lines) {
        lines.remove(at);
    }
}

pub fn double_line(random: &mut Random, lines: &mut Draft) {
    if let Some(at) = any_at(random, lines) {
        lines.insert(at, lines[at].clone());
    }
}

/// With the next one, or with any.
pub fn swap_lines(random: &mut Random, lines: &mut Draft) {
    if let Some(at) = any_at(random, lines) {
        let next = (at + 1) % lines.len();
        let other = random.below(lines.len());
        lines.swap(at, random.pick(&[next, other]));
    }
}

pub fn add_line(random: &mut Random, lines: &mut Draft) {
    let at = random.between(0, lines.len());
    lines.insert(at, any_line(random));
}

/// A line and the next one as one line.
pub fn join_lines(random: &mut Random, lines: &mut Draft) {
    if lines.len() >= 2 {
        let at = random.below(lines.len() - 1);
        let next = lines.remove(at + 1);
        let line = &mut lines[at];
        match line.parts.last_mut() {
            Some(part) => part.append(&mut line.end),
            None => line.parts.push(line.end.clone()),
        }
        line.parts.extend(next.parts);
        line.end = next.end;
    }
}

/// A line as two lines, parted between two parts.
pub fn split_line(random: &mut Random, lines: &mut Draft) {
    if let Some(at) = any_at(random, lines) {
        let line = &mut lines[at];
        let place = random.between(0, line.parts.len());
        let rest = Line {
            parts: line.parts.split_off(place),
            end: std::mem::take(&mut line.end),
        };
        lines.insert(at + 1, rest);
    }
}
