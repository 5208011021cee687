//! The lines of a file, and the form of a line.

use super::faults::Fault;

pub enum Line {
    Comment,
    Problem(u64, u64),
    Arc(u64, u64, u64),
}

/// Nothing where the file is refused as a whole.
pub fn split(file: &[u8], fault: Option<Fault>) -> Option<Vec<Vec<u8>>> {
    let is = |one| fault == Some(one);
    let nul = file.iter().position(|&byte| byte == 0);
    let file = match nul {
        Some(nul) if is(Fault::NulEnds) => &file[..nul],
        _ => file,
    };
    let mut lines: Vec<Vec<u8>> = file
        .split(|&byte| byte == b'\n')
        .map(<[u8]>::to_vec)
        .collect();
    let has_last_lf = lines.last().is_some_and(Vec::is_empty);
    if !has_last_lf && is(Fault::LastLfNeeded) {
        return None;
    }
    if (has_last_lf && !is(Fault::BlankAfterLastLf)) || is(Fault::LastLineLost) {
        lines.pop();
    }
    if is(Fault::LfIsSpace) {
        lines = arcs_run_on(lines);
    }
    Some(lines)
}

/// An arc with parts missing goes on in the next line.
fn arcs_run_on(lines: Vec<Vec<u8>>) -> Vec<Vec<u8>> {
    let is_short = |line: &Vec<u8>| {
        let parts = line.split(|&byte| byte == b' ');
        line.starts_with(b"a") && parts.filter(|part| !part.is_empty()).count() < 4
    };
    let mut joined: Vec<Vec<u8>> = Vec::new();
    for line in lines {
        match joined.last_mut() {
            Some(last) if is_short(last) => last.extend([b" ", line.as_slice()].concat()),
            _ => joined.push(line),
        }
    }
    joined
}

/// Nothing where the line has no known form.
pub fn parse(line: &[u8], is_after_problem: bool, fault: Option<Fault>) -> Option<Line> {
    let is = |one| fault == Some(one);
    if is_comment(line, fault) {
        let allowed = !is_after_problem || !is(Fault::CommentOnlyBeforeProblem);
        return allowed.then_some(Line::Comment);
    }
    let line = spaced(line, fault)?;
    let mut parts: Vec<&[u8]> = line.split(|&byte| byte == b' ').collect();
    if !is(Fault::OneSpaceOnly) {
        parts.retain(|part| !part.is_empty());
    }
    let letter = letter(parts.first()?, fault);
    let (first, rest) = line.split_first()?;
    if is(Fault::LetterGlued) && letter.len() > 1 && b"pa".contains(first) {
        return parse(&[&[*first, b' '], rest].concat(), is_after_problem, None);
    }
    if parts.len() == 3 && letter == b"a" && is(Fault::MissingIsZero) {
        parts.push(b"0");
    }
    if parts.len() != 4 && !(parts.len() > 4 && is(Fault::PartTooMany)) {
        return None;
    }
    let number = |at: usize| numeral(parts[at], fault);
    match letter.as_slice() {
        b"p" if parts[1] == b"sp" || is(Fault::AnyWordForSp) => {
            Some(Line::Problem(number(2)?, number(3)?))
        }
        b"a" => Some(Line::Arc(number(1)?, number(2)?, number(3)?)),
        _ => None,
    }
}

fn is_comment(line: &[u8], fault: Option<Fault>) -> bool {
    match fault {
        Some(Fault::CommentNeedsSpace) => line == b"c" || line.starts_with(b"c "),
        Some(Fault::CommentUppercase) => line.starts_with(b"c") || line.starts_with(b"C"),
        Some(Fault::CommentAfterSpaces) => line.trim_ascii_start().starts_with(b"c"),
        Some(Fault::BlankAllowed) if line.is_empty() => true,
        Some(Fault::SpacesAllowed) if !line.is_empty() && line.iter().all(|&byte| byte == b' ') => {
            true
        }
        _ => line.starts_with(b"c"),
    }
}

/// The line with no space at its ends and spaces alone between.
fn spaced(line: &[u8], fault: Option<Fault>) -> Option<Vec<u8>> {
    let is = |one| fault == Some(one);
    let mut line = line.to_vec();
    if is(Fault::CrIsDropped) && line.ends_with(b"\r") {
        line.pop();
    }
    if is(Fault::TabIsSpace) {
        line.iter_mut()
            .filter(|byte| **byte == b'\t')
            .for_each(|byte| *byte = b' ');
    }
    let before = line.starts_with(b" ") && !is(Fault::SpaceBefore);
    let after = line.ends_with(b" ") && !is(Fault::SpaceAfter);
    (!before && !after).then_some(line)
}

fn letter(part: &[u8], fault: Option<Fault>) -> Vec<u8> {
    match (fault, part) {
        (Some(Fault::Uppercase), part) => part.to_ascii_lowercase(),
        (Some(Fault::LetterTwice), [one, other]) if one == other => vec![*one],
        _ => part.to_vec(),
    }
}

pub fn numeral(part: &[u8], fault: Option<Fault>) -> Option<u64> {
    let is = |one| fault == Some(one);
    let part = match part {
        [b'+', digits @ ..] if is(Fault::PlusAllowed) => digits,
        [b'-', digits @ ..] if is(Fault::MinusAllowed) => digits,
        [b'0', _, ..] if is(Fault::NoZerosFirst) => return None,
        part => part,
    };
    let most = match fault {
        Some(Fault::NineDigits) => 9,
        Some(Fault::ElevenDigits) => 11,
        _ => 10,
    };
    if part.is_empty() || part.len() > most {
        return None;
    }
    part.iter().try_fold(0, |value, &byte| {
        let byte = if is(Fault::HighBitDropped) {
            byte & 127
        } else {
            byte
        };
        let digit = match byte {
            b'0'..=b'9' => byte - b'0',
            b':' if is(Fault::ByteAfterNine) => 10,
            b'/' if is(Fault::ByteBeforeZero) => 0,
            _ => return None,
        };
        Some(10 * value + u64::from(digit))
    })
}
