//! Job texts that are damaged byte by byte, and texts that never were any.

use crate::random::Random;
use crate::texts::lists::small_list;
use crate::texts::odd_parts::{any_part, ENDS, NAMES};
use crate::texts::writing::{text, Freedom};

/// Bytes that mean something in a text, and some that only look like them.
const BYTES: &[u8] = b"  ()()--;0123456789\n\n\r\t\0rjlw\x0b\x0c/:,[]\x1f!\x7f\x80\x85\xa0\xff";

/// A small list's text with one damage or a few.
pub fn damaged_bytes(random: &mut Random) -> Vec<u8> {
    let freedom = Freedom::any(random);
    let list = small_list(random);
    let mut bytes = text(random, freedom, &list);
    for _ in 0..random.pick(&[1, 1, 1, 2, 3]) {
        if !bytes.is_empty() {
            damage(random, &mut bytes);
        }
    }
    bytes
}

fn damage(random: &mut Random, bytes: &mut Vec<u8>) {
    let at = random.below(bytes.len());
    let other = random.below(bytes.len());
    let byte = any_byte(random);
    match random.below(14) {
        0 | 1 => bytes[at] = byte,
        2 | 3 => bytes.insert(at, byte),
        4 | 5 => drop(bytes.remove(at)),
        6 | 7 => bytes[at] ^= 1 << random.below(8),
        8 => bytes.swap(at, other),
        9 => bytes.truncate(at),
        10 => bytes.extend_from_within(at..),
        11 => drop(bytes.drain(at.min(other)..at.max(other))),
        12 => replace_one(random, bytes),
        _ => *bytes = replaced_all(random, bytes),
    }
}

fn any_byte(random: &mut Random) -> u8 {
    match random.one_in(4) {
        true => random.word() as u8,
        false => random.pick(BYTES),
    }
}

/// CR before LF, tabs for spaces and the like.
const REPLACED: [(u8, &[u8]); 9] = [
    (b'\n', b"\r\n"),
    (b'\n', b"\r"),
    (b'\n', b" "),
    (b'\n', b"\n\n"),
    (b' ', b"\t"),
    (b' ', b""),
    (b' ', b"  "),
    (b')', b" )"),
    (b'(', b"( "),
];

fn replaced_all(random: &mut Random, bytes: &[u8]) -> Vec<u8> {
    let (from, to) = random.pick(&REPLACED);
    let replaced = |&byte: &u8| match byte == from {
        true => to.to_vec(),
        false => vec![byte],
    };
    bytes.iter().flat_map(replaced).collect()
}

fn replace_one(random: &mut Random, bytes: &mut Vec<u8>) {
    let (from, to) = random.pick(&REPLACED);
    let places: Vec<usize> = (0..bytes.len()).filter(|&at| bytes[at] == from).collect();
    if !places.is_empty() {
        let at = random.pick(&places);
        bytes.splice(at..at + 1, to.iter().copied());
    }
}

/// Bytes of any kind, printable bytes, or the words of the grammar in any order.
pub fn senseless_text(random: &mut Random) -> Vec<u8> {
    let len = random.pick(&[0, 1, 2, 5, 40, 300]);
    match random.below(5) {
        0 => random.bytes(len),
        1 => (0..len).map(|_| random.between(32, 126) as u8).collect(),
        2 => (0..len).map(|_| random.pick(BYTES)).collect(),
        3 => (0..len).map(|_| random.pick(b" ;\n")).collect(),
        _ => (0..len.min(40)).flat_map(|_| any_token(random)).collect(),
    }
}

fn any_token(random: &mut Random) -> Vec<u8> {
    let token = match random.below(5) {
        0 => random.pick(&[
            "(list 2",
            "(list 1",
            "(job 1 reach",
            "(job 2 distance",
            "(row 1)",
        ]),
        1 => any_part(random),
        2 => random.pick(&NAMES),
        3 => random.pick(&ENDS),
        _ => ")",
    };
    let after = random.pick(&["\n", "\n", " ", ""]);
    [token.as_bytes(), after.as_bytes()].concat()
}
