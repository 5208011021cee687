//! Texts at the borders of the tests, with what they have to be refused with. The numbers and lines are written down
//! here by hand from document 01 and K8 of document 02, and not taken from the reader.

use crate::job_text::{Refusal, MAX_JOBS, MAX_TEXT};
use crate::texts::border_lines::{JOB_LINES, LAST_JOB_LINES, LIST_LINES, ROW_LINES};

/// The text in document 01, as K8 has it.
pub const LISTING: &str = "(list 2\n(job 2 distance\n(row 0 5)\n(row - 0)\n)\n)\n";

/// Whole texts, with number and line, or 0 and 0 where they are accepted.
#[rustfmt::skip]
const WHOLE: &[(&str, u16, u32)] = &[
    (LISTING, 0, 0),
    ("", 17, 0),
    ("\n", 17, 1),
    (" ", 17, 1),
    ("\n\n", 17, 2),
    ("\n ", 17, 2),
    (";", 17, 1),
    (";\n\n  ; x\n", 17, 3),
    ("; (list 2\n", 17, 1),
    ("(list 2", 17, 1),
    ("(list 2\n", 17, 1),
    ("(list 2\n\n", 17, 2),
    ("(list 2\n\n;\n \n", 17, 4),
    ("\n\n(list 33\n", 6, 3),
    ("x\n(list 33\n", 14, 1),
    ("(list 33\nx\n", 6, 1),
    ("(list 1\n)\n", 7, 2),
    ("(list 1\n)\n)\n", 7, 2),
    ("(list 32\n)\n", 7, 2),
    ("(list 00032\n ; x\n  )  \n", 7, 3),
    ("   (list   2  \n)", 7, 2),
    ("(list 1\n(job 1 reach\n(row 0)\n)\n)", 0, 0),
    ("(list 1\n(job 1 reach\n(row 0)\n)\n)\n", 0, 0),
    ("(list 1\n(job 1 reach\n(row 0)\n)\n", 17, 4),
    ("(list 1\n(job 1 reach\n(row 0)\n", 17, 3),
    ("(list 1\n(job 1 reach\n(row 0)\n)\n)\n)\n", 17, 6),
    ("(list 1\n(job 1 reach\n(row 0)\n)\n)\nx", 17, 6),
    ("(list 1\n(job 1 reach\n(row 0)\n)\n)\n\n;\n \n\0\n", 17, 9),
    ("(list 1\n(job 1 reach\n(row 0)\n)\n)\n\n;\n ", 0, 0),
    ("(list 1\n(job 1 reach\n(row 0)\n)\n(list 1\n", 14, 5),
    ("(list 1\n(job 1 reach\n(row 0)\n(job 1 reach\n", 14, 4),
    ("(list 1\n(job 1 reach\n(row 0)\n(row 0)\n", 14, 4),
    ("(list 1\n(job 1 reach\n)\n", 14, 3),
    ("(list 1\n(job 1 reach\n(row 2)\n(row -)\n", 5, 3),
    ("(list 2\n(job 2 reach\n(row 1 1)\n(row 1)\n)\n)\n", 16, 4),
    ("(list 2\n(job 2 reach\n(row 1 1)\n(row 1 1 1)\n)\n)\n", 16, 4),
    ("(list 1\n(job 1 distance\n(row -)\n)\n)\n", 0, 0),
    ("(list 1\n(job 1 steepest\n(row 65535)\n)\n)\n", 0, 0),
    // As before K8.
    ("(list 2 distance\n(job 2\n(row 0 5)\n(row - 0)\n)\n)\n", 14, 1),
    ("(list 2 distance\n(job 2 distance\n(row 0 5)\n(row - 0)\n)\n)\n", 14, 1),
    ("(list 2\n(job 2\n(row 0 5)\n(row - 0)\n)\n)\n", 14, 2),
    // `-` and words above 1 go by the open job's algebra, first or not, whatever the one before or after it has.
    ("(list 1\n(job 1 reach\n(row 1)\n)\n(job 1 distance\n(row -)\n)\n(job 1 steepest\n(row 2)\n)\n)\n", 0, 0),
    ("(list 1\n(job 1 distance\n(row -)\n)\n(job 1 reach\n(row 1)\n)\n(job 1 distance\n(row 2)\n)\n)\n", 0, 0),
    ("(list 1\n(job 1 distance\n(row -)\n)\n(job 1 reach\n(row -)\n)\n)\n", 15, 6),
    ("(list 1\n(job 1 steepest\n(row 2)\n)\n(job 1 reach\n(row 2)\n)\n)\n", 5, 6),
    ("(list 1\n(job 1 reach\n(row -)\n)\n(job 1 distance\n(row -)\n)\n)\n", 15, 3),
    ("(list 1\n(job 1 reach\n(row 2)\n)\n(job 1 steepest\n(row 2)\n)\n)\n", 5, 3),
    ("(list 1\n(job 1 reach\n(row 1)\n)\n(job 1 distance\n(row 2)\n)\n(job 1 reach\n(row 2)\n)\n)\n", 5, 9),
    ("(list 1\n(job 1 distance\n(row 2)\n)\n(job 1 2\n", 14, 5),
    ("(list 1\n(job 1 distance\n(row 2)\n)\n(job 1\n", 14, 5),
];

/// A text, and what it is refused with if it is not accepted.
pub type Border = (Vec<u8>, Option<Refusal>);

pub fn border_texts() -> Vec<Border> {
    let mut borders = Vec::new();
    for &(text, number, line) in WHOLE {
        borders.push(border(text, number, line));
    }
    let full = full_list();
    borders.push(border(&full, 17, full.lines().count() as u32));
    borders.push(border(&(full.clone() + ")\n"), 0, 0));
    let before = [
        ("", LIST_LINES),
        ("(list 2\n", JOB_LINES),
        ("(list 2\n(job 1 reach\n", ROW_LINES),
        (
            "(list 2\n(job 1 distance\n(row -)\n)\n(job 1 reach\n",
            ROW_LINES,
        ),
        (&full, LAST_JOB_LINES),
    ];
    for (before, lines) in before {
        let at = before.lines().count() as u32 + 1;
        let lines = lines.iter().flat_map(|&(number, lines)| {
            let lines = lines.split('|');
            lines.map(move |line| (line, number))
        });
        for (line, number) in lines {
            borders.push(border(&format!("{before}{line}"), number, at));
            // With one more line, which is skipped but counts where the text ends early.
            let last = if number == 17 { at + 1 } else { at };
            borders.push(border(&format!("{before}{line}\n;\n"), number, last));
        }
    }
    borders.extend(long_borders());
    borders
}

fn border(text: &str, number: u16, line: u32) -> Border {
    let refusal = (number > 0).then_some(Refusal { number, line });
    (text.as_bytes().to_vec(), refusal)
}

/// As many jobs as a list may have, and the list not closed.
fn full_list() -> String {
    "(list 1\n".to_string() + &"(job 1 reach\n(row 0)\n)\n".repeat(MAX_JOBS)
}

/// At the largest length and one byte longer.
fn long_borders() -> Vec<Border> {
    let last = MAX_TEXT as u32;
    let spaces = |len| " ".repeat(len);
    let lfs = |len| "\n".repeat(len);
    let room = MAX_TEXT - LISTING.len();
    let too_long = |text: &str| border(text, 13, 0);
    vec![
        border(&lfs(MAX_TEXT), 17, last),
        border(&(lfs(MAX_TEXT - 1) + "x"), 14, last),
        border(&(lfs(MAX_TEXT - 1) + " "), 17, last),
        border(&spaces(MAX_TEXT), 17, 1),
        border(&"x".repeat(MAX_TEXT), 14, 1),
        border(&("(list ".to_string() + &"1".repeat(MAX_TEXT - 6)), 15, 1),
        border(&(lfs(room) + LISTING), 0, 0),
        border(&(LISTING.to_string() + &lfs(room)), 0, 0),
        border(&(LISTING.to_string() + &spaces(room)), 0, 0),
        border(&(LISTING.to_string() + ";" + &spaces(room - 1)), 0, 0),
        border(
            &(LISTING.to_string() + &lfs(room - 1) + ")"),
            17,
            last - (LISTING.len() as u32 - 6),
        ),
        too_long(&lfs(MAX_TEXT + 1)),
        too_long(&spaces(MAX_TEXT + 1)),
        too_long(&"x".repeat(MAX_TEXT + 1)),
        too_long(&(lfs(room + 1) + LISTING)),
        too_long(&(LISTING.to_string() + &lfs(room + 1))),
        too_long(&(LISTING.to_string() + ";" + &spaces(room))),
    ]
}
