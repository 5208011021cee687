//! Texts at the largest length: a right or a damaged text with bytes that a reader skips put into it.

use crate::job_text::MAX_TEXT;
use crate::random::Random;
use crate::texts::damage::{damaged_text, NUMBERS};
use crate::texts::lists::{largest_list, medium_list, small_list};
use crate::texts::writing::text_of;

/// As long as the largest length or a byte less, or longer.
pub fn long_text(random: &mut Random) -> Vec<u8> {
    let number = random.pick(&NUMBERS);
    let short = match random.below(5) {
        0 => damaged_text(random, number),
        1 => text_of(random, medium_list, &[0]),
        2 => text_of(random, largest_list, &[0]),
        _ => text_of(random, small_list, &[0, 2, 5, 20]),
    };
    let beyond = random.between(2, 5_000);
    let over = random.pick(&[0, 0, 0, 1, 1, beyond, MAX_TEXT]);
    let len = if random.one_in(8) {
        MAX_TEXT - 1
    } else {
        MAX_TEXT + over
    };
    padded(random, short, len)
}

/// The text made `len` bytes long, where it is shorter.
fn padded(random: &mut Random, mut text: Vec<u8>, len: usize) -> Vec<u8> {
    let missing = len.saturating_sub(text.len());
    let ends: Vec<usize> = (0..text.len()).filter(|&at| text[at] == b'\n').collect();
    let end = match ends.is_empty() {
        true => text.len(),
        false => random.pick(&ends),
    };
    // Right before a LF, or right after one or at one of the text's own ends.
    let (at, padding) = match random.below(8) {
        0 | 1 => (end, vec![b' '; missing]),
        2 => (0, vec![b' '; missing]),
        3 => (text.len(), vec![b' '; missing]),
        4 => (end, vec![b'\n'; missing]),
        5 => (text.len(), vec![b'\n'; missing]),
        6 => (0, comment(random, missing)),
        _ => ((end + 1).min(text.len()), comment(random, missing)),
    };
    text.splice(at..at, padding);
    text
}

/// Of `len` bytes with the LF. It may hold forms, and LFs that begin further comments.
fn comment(random: &mut Random, len: usize) -> Vec<u8> {
    let piece = random.pick(&[
        &b";"[..],
        b";x",
        b"; (row 1 2)",
        b";\n",
        b";)\n",
        b";\xff\r\0",
    ]);
    let mut comment: Vec<u8> = piece.iter().copied().cycle().take(len).collect();
    if let Some(last) = comment.last_mut() {
        *last = b'\n';
    }
    comment
}
