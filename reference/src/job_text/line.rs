//! One line of a job text: whether it is skipped, its brackets, its name and its parts.

use crate::algebra::Algebra;

/// A line whose brackets and spaces stand where "Job text and bench program" has them. The parts are yet untested.
#[derive(Debug, PartialEq, Eq)]
pub enum Form<'a> {
    List(Vec<&'a [u8]>),
    Job(Vec<&'a [u8]>),
    Row(Vec<&'a [u8]>),
    Close,
}

/// The line without the spaces before and after its form, or nothing where the line is skipped.
pub fn unskipped(line: &[u8]) -> Option<&[u8]> {
    let first = line.iter().position(|&byte| byte != b' ')?;
    let last = line.iter().rposition(|&byte| byte != b' ')?;
    match line[first] {
        b';' => None,
        _ => Some(&line[first..=last]),
    }
}

/// The form of an unskipped line, or nothing where it is none of the forms, due or not.
pub fn form(line: &[u8]) -> Option<Form<'_>> {
    if line == b")" {
        return Some(Form::Close);
    }
    let after_open = line.strip_prefix(b"(")?;
    let (inside, closed) = match after_open.strip_suffix(b")") {
        Some(inside) => (inside, true),
        None => (after_open, false),
    };
    let at_an_edge = inside.starts_with(b" ") || inside.ends_with(b" ");
    let more_brackets = inside.contains(&b'(') || inside.contains(&b')');
    if at_an_edge || more_brackets {
        return None;
    }
    let mut parts = inside
        .split(|&byte| byte == b' ')
        .filter(|part| !part.is_empty());
    let name = parts.next()?;
    match (name, closed) {
        (b"list", false) => Some(Form::List(parts.collect())),
        (b"job", false) => Some(Form::Job(parts.collect())),
        (b"row", true) => Some(Form::Row(parts.collect())),
        _ => None,
    }
}

pub fn algebra_named(part: &[u8]) -> Option<Algebra> {
    Algebra::ALL
        .into_iter()
        .find(|algebra| algebra.name().as_bytes() == part)
}

/// Digits alone, of any number.
pub fn is_numeral(part: &[u8]) -> bool {
    !part.is_empty() && part.iter().all(u8::is_ascii_digit)
}

/// A numeral's number, or nothing where it has over 5 digits or is above 65535.
pub fn number(numeral: &[u8]) -> Option<u16> {
    if numeral.len() > 5 {
        return None;
    }
    let digits = numeral.iter().map(|&digit| u32::from(digit - b'0'));
    let number = digits.fold(0, |number, digit| 10 * number + digit);
    u16::try_from(number).ok()
}
