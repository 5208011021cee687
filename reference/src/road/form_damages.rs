//! Lines of no known form: a right line changed in one thing. All are refused with 21.

use crate::random::Random;
use crate::road::draft::Draft;

/// A line made of one that is right.
type Damage = fn(&mut Random, &[u8]) -> Vec<u8>;

/// Of a `p` line and of an `a` line.
const LINE_DAMAGES: [Damage; 12] = [
    carriage_return,
    leading_space,
    trailing_space,
    tab,
    part_missing,
    part_too_many,
    other_letter,
    glued,
    sign,
    too_many_digits,
    other_byte,
    empty_numeral,
];

/// One line of the file is changed.
pub fn line_damaged(random: &mut Random, draft: &mut Draft) {
    let at = any_line(random, draft);
    draft.lines[at] = damaged_line(random, &draft.lines[at]);
}

pub fn sp_misspelt(random: &mut Random, draft: &mut Draft) {
    let word = random.pick(&["SP", "Sp", "s", "p", "spp", "sp1", "max", "1", "s p", "ps"]);
    let line = &mut draft.lines[draft.problem];
    let at = line.iter().position(|&byte| byte == b's');
    let at = at.expect("a p line has its sp");
    line.splice(at..at + 2, word.bytes());
}

/// One more line anywhere: blank, of spaces, or of a few bytes.
pub fn stray_line(random: &mut Random, draft: &mut Draft) {
    let at = draft.any_place_from(random, 0);
    let line = match random.below(4) {
        0 | 1 => Vec::new(),
        2 => vec![b' '; random.between(1, 4)],
        _ => {
            let lines: [&[u8]; 12] = [
                b"\r", b"\t", b"p", b"a", b"A", b"P", b"\0", b"\x80", b" c", b"C", b"n 1 2", b"0",
            ];
            random.pick(&lines).to_vec()
        }
    };
    draft.insert(at, line);
}

/// The `p` line or an `a` line.
pub fn any_line(random: &mut Random, draft: &Draft) -> usize {
    let mut places = draft.arc_places();
    if places.is_empty() || random.one_in(3) {
        places = vec![draft.problem];
    }
    random.pick(&places)
}

/// Any of the damages above.
pub fn damaged_line(random: &mut Random, line: &[u8]) -> Vec<u8> {
    random.pick(&LINE_DAMAGES)(random, line)
}

fn carriage_return(_: &mut Random, line: &[u8]) -> Vec<u8> {
    [line, b"\r"].concat()
}

fn leading_space(random: &mut Random, line: &[u8]) -> Vec<u8> {
    [&vec![b' '; random.between(1, 3)], line].concat()
}

fn trailing_space(random: &mut Random, line: &[u8]) -> Vec<u8> {
    [line, &vec![b' '; random.between(1, 3)]].concat()
}

/// In the place of a space, or before or after it, or at an end.
fn tab(random: &mut Random, line: &[u8]) -> Vec<u8> {
    let mut line = line.to_vec();
    let spaces: Vec<usize> = (0..line.len()).filter(|&at| line[at] == b' ').collect();
    let at = random.pick(&spaces);
    match random.below(5) {
        0 => line.insert(at, b'\t'),
        1 => line.insert(at + 1, b'\t'),
        2 => line.insert(0, b'\t'),
        3 => line.push(b'\t'),
        _ => line[at] = b'\t',
    }
    line
}

fn parts(line: &[u8]) -> Vec<Vec<u8>> {
    let parts = line.split(|&byte| byte == b' ');
    parts
        .filter(|part| !part.is_empty())
        .map(<[u8]>::to_vec)
        .collect()
}

fn part_missing(random: &mut Random, line: &[u8]) -> Vec<u8> {
    let mut parts = parts(line);
    match random.below(3) {
        0 => parts.truncate(random.between(1, 3)),
        _ => _ = parts.remove(random.between(1, 3)),
    }
    parts.join(&b' ')
}

fn part_too_many(random: &mut Random, line: &[u8]) -> Vec<u8> {
    let mut parts = parts(line);
    let part: &[u8] = random.pick(&[b"1", b"0", b"c", b"a", b"sp"]);
    parts.insert(random.between(1, 4), part.to_vec());
    parts.join(&b' ')
}

fn other_letter(random: &mut Random, line: &[u8]) -> Vec<u8> {
    let (letter, rest) = (line[0], &line[1..]);
    let other = if letter == b'p' { b'a' } else { b'p' };
    let letters = [
        vec![letter.to_ascii_uppercase()],
        vec![letter, letter],
        vec![other],
        vec![b'x'],
        vec![letter, b'c'],
        Vec::new(),
    ];
    let at = random.below(letters.len());
    [&letters[at], rest].concat()
}

/// The letter and what follows it.
fn glued(_: &mut Random, line: &[u8]) -> Vec<u8> {
    let spaces = line[1..].iter().take_while(|&&byte| byte == b' ').count();
    [&line[..1], &line[1 + spaces..]].concat()
}

/// One of the line's numerals, changed.
fn with_numeral(random: &mut Random, line: &[u8], change: impl Fn(&[u8]) -> Vec<u8>) -> Vec<u8> {
    let mut parts = parts(line);
    let first = if parts[0] == b"p" { 2 } else { 1 };
    let at = random.between(first, 3);
    parts[at] = change(&parts[at]);
    parts.join(&b' ')
}

fn sign(random: &mut Random, line: &[u8]) -> Vec<u8> {
    let sign = random.pick(b"-+");
    with_numeral(random, line, |numeral| [&[sign], numeral].concat())
}

/// Zeros first, so that the number is the same, or last.
fn too_many_digits(random: &mut Random, line: &[u8]) -> Vec<u8> {
    let width = random.pick(&[11, 11, 11, 12, 20, 21, 40]);
    let first = random.one_in(2);
    with_numeral(random, line, |numeral| {
        let zeros = vec![b'0'; width - numeral.len()];
        match first {
            true => [&zeros, numeral].concat(),
            false => [numeral, &zeros].concat(),
        }
    })
}

fn other_byte(random: &mut Random, line: &[u8]) -> Vec<u8> {
    let high = random.between(128, 255) as u8;
    let byte = random.pick(&[
        0, high, high, b'\r', b'.', b',', b'x', b'/', b':', b'_', 11, 127,
    ]);
    let mut line = line.to_vec();
    line.insert(random.between(0, line.len()), byte);
    line
}

/// What is left of a numeral that has lost its digits.
fn empty_numeral(random: &mut Random, line: &[u8]) -> Vec<u8> {
    let left: &[u8] = random.pick(&[b"-", b"+", b".", b"x", b"\"\"", b"none", b"1e3", b"0x1"]);
    with_numeral(random, line, |_| left.to_vec())
}
