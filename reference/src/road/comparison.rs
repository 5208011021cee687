//! Road files: the answer and every word that the call leaves, for many files right and damaged; and the program over it, by
//! every byte it prints.

use crate::calls::Calls;
use crate::comparison::Comparison;
use crate::road::border::{border_files, neighbours};
use crate::road::draft::Draft;
use crate::road::kinds::{Kind, KINDS};
use crate::road::memory::Memory;
use crate::road::printed::judge_printed;
use crate::road::{Answer, COUNT, FORM, LONGEST, RANGE, WORDS};

/// Lengths of the buffer that are wrong, beside the square of the points.
const WRONG_LENS: [usize; 5] = [0, 1, 16_383, 16_385, 32_768];
const SQUARE: &str = "buffer of POINTS² words";
/// Of so many files that are right, or that are not, one goes through the program too.
const PRINTED_ONE_IN: [usize; 2] = [16, 80];

/// Given a file in so many pieces, the program returns what it wrote to standard output and to standard error.
pub trait Program: Fn(&[u8], usize) -> Result<[Vec<u8>; 2], String> {}

impl<F: Fn(&[u8], usize) -> Result<[Vec<u8>; 2], String>> Program for F {}

/// Each says where the call or the program differs.
impl<C: Calls> Comparison<C> {
    pub fn compare_roads(&mut self, program: &impl Program) -> Result<(), String> {
        self.expect_files();
        for (file, number) in border_files() {
            let answer = self.compare_file(file, Some(number))?;
            self.compare_printed(file, answer, 1, program)?;
        }
        for file in neighbours() {
            _ = self.compare_file(&file, None)?;
        }
        for kind in &KINDS {
            let one_in = PRINTED_ONE_IN[usize::from(kind.2 != Some(0))];
            for at in 0..kind.1 {
                let (file, answer) = self.compare_kind(kind)?;
                if at % one_in == 0 {
                    let pieces = 1 + at / one_in % 3;
                    self.compare_printed(&file, answer, pieces, program)?;
                }
            }
        }
        Ok(())
    }

    fn expect_files(&mut self) {
        for (name, ..) in KINDS {
            self.tally.expect(format!("files, {name}"));
        }
        for number in [FORM, RANGE, COUNT] {
            self.tally.expect(format!("answers, refused with {number}"));
        }
        self.tally.expect(SQUARE);
        for answer in [Ok(1), Err(FORM)] {
            for about in ["printed", "printed, of the longest", "30 megabytes"] {
                self.tally.expect(about_answer(about, answer));
            }
            for len in WRONG_LENS {
                let about = format!("buffer of {len}");
                self.tally.expect(about_answer(&about, answer));
            }
        }
        self.tally.expect("not printed, too long");
        self.tally.expect("128 points and 100000 arcs");
    }

    /// A file of this kind, with a right buffer, and one time in four with a wrong one besides.
    pub fn compare_kind(&mut self, kind: &Kind) -> Result<(Vec<u8>, Answer), String> {
        let (name, _, number, damage) = kind;
        let mut draft = Draft::any(&mut self.random);
        damage(&mut self.random, &mut draft);
        let file = draft.text();
        let answer = self.compare_file(&file, *number)?;
        self.tally.count(format!("files, {name}"));
        if self.random.one_in(4) {
            let square = answer.map_or(4, |points| points * points);
            let lens = [WRONG_LENS.as_slice(), &[square]].concat();
            let len = self.random.pick(&lens);
            self.compare_wrong_len(&file, len, answer)?;
        }
        Ok((file, answer))
    }

    /// The number is the one that the file was made for, where that is known.
    pub fn compare_file(&mut self, file: &[u8], made: Option<u32>) -> Result<Answer, String> {
        let answer = self.lend_file(file, WORDS)?;
        let number = answer.err().unwrap_or(0);
        if made.is_some_and(|made| made != number) {
            let what =
                format!("the reference contradicts itself: made for {made:?}, read as {number}");
            return Err(described(file, &what));
        }
        self.tally.count(match number {
            0 => "answers, accepted".to_string(),
            _ => format!("answers, refused with {number}"),
        });
        if file.len() >= 30_000_000 {
            self.tally.count(about_answer("30 megabytes", answer));
        }
        if answer == Ok(128) && is_of_100_000_arcs(file) {
            self.tally.count("128 points and 100000 arcs");
        }
        Ok(answer)
    }

    /// The square of 128 is no wrong length, and left out.
    fn compare_wrong_len(&mut self, file: &[u8], len: usize, answer: Answer) -> Result<(), String> {
        if len != WORDS {
            let refused = self.lend_file(file, len)?;
            assert_eq!(refused, Err(FORM), "the reference contradicts itself");
            let about = format!("buffer of {len}");
            if WRONG_LENS.contains(&len) {
                self.tally.count(about_answer(&about, answer));
            }
            if answer.is_ok_and(|points| points * points == len) {
                self.tally.count(SQUARE);
            }
        }
        Ok(())
    }

    fn lend_file(&mut self, file: &[u8], table_len: usize) -> Result<Answer, String> {
        let mut memory = Memory::new(&mut self.random, file, table_len);
        let (lent, table, points) = memory.lent();
        let number = self.calls.read(lent, table, points);
        let judged = memory.judge(number);
        judged.map_err(|what| described(file, &format!("buffer of {table_len}: {what}")))
    }

    pub fn compare_printed(
        &mut self,
        file: &[u8],
        answer: Answer,
        pieces: usize,
        program: &impl Program,
    ) -> Result<(), String> {
        let told =
            program(file, pieces).and_then(|[output, error]| judge_printed(file, &output, &error));
        told.map_err(|what| described(file, &format!("the program: {what}")))?;
        self.tally.count(match file.len() {
            len if len > LONGEST => "not printed, too long".to_string(),
            LONGEST => about_answer("printed, of the longest", answer),
            _ => about_answer("printed", answer),
        });
        Ok(())
    }
}

fn about_answer(about: &str, answer: Answer) -> String {
    let answer = answer.map_or("refused", |_| "accepted");
    format!("{about}, {answer}")
}

fn is_of_100_000_arcs(file: &[u8]) -> bool {
    let lines = file.split(|&byte| byte == b'\n');
    let arcs = lines.filter(|line| line.starts_with(b"a "));
    file.len() >= 800_000 && arcs.count() >= 100_000
}

/// With the file, where it is short enough to be tried by hand.
fn described(file: &[u8], what: &str) -> String {
    let len = file.len();
    match len {
        0..=2000 => format!("{what}\nfile: \"{}\"", file.escape_ascii()),
        _ => format!("{what}\nfile of {len} bytes"),
    }
}
