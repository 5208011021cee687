//! Holds the proved bench program, run as a process, against the reference: every byte it prints for many random job
//! texts, right and damaged. Beside that, the reference's array is held against its elimination.
//!
//!     compare_bench PROGRAM [PERCENT]
//!
//! PERCENT scales the number of texts, 100 if it is not given. Ends with status 1 at the first difference, and where a
//! kind of text was not met.

use reference::bench::program_call::{first_difference, printed};
use reference::bench::sheet::{accepted, refused};
use reference::comparison::conclude;
use reference::job_text::{read, JobList};
use reference::random::Random;
use reference::systolic::checks::check;
use reference::systolic::run;
use reference::tally::{Kind, Tally};
use reference::texts::border::border_texts;
use reference::texts::byte_damage::{damaged_bytes, senseless_text};
use reference::texts::damage::{damaged_text, mixed_text, NUMBERS};
use reference::texts::lists::*;
use reference::texts::long::long_text;
use reference::texts::writing::text_of;
use std::env;
use std::fs;
use std::path::PathBuf;
use std::process::ExitCode;

const SEED: u64 = 0x5EED_0F0A_7AB1_E003;

/// How many texts of a kind, and how one is made.
type Texts = (usize, fn(&mut Random) -> Vec<u8>);

const TEXTS: [Texts; 8] = [
    (9_000, |random| text_of(random, small_list, &[0, 2, 5, 20])),
    (500, |random| text_of(random, medium_list, &[0, 2, 5, 20])),
    // In a text of the largest list there is little room for freedom, and in one of the longest none.
    (300, |random| text_of(random, largest_list, &[0, 20])),
    (100, |random| text_of(random, longest_list, &[0])),
    (600, long_text),
    (3_000, damaged_bytes),
    (3_000, mixed_text),
    (1_000, senseless_text),
];

/// For each refusal that lines are damaged for.
const DAMAGED_TEXTS: usize = 1_000;

/// The refusals that a text can meet through the program.
const REFUSALS: [u16; 9] = [5, 6, 7, 8, 13, 14, 15, 16, 17];

/// Kinds of accepted lists.
const LISTS: [Kind<JobList>; 8] = [
    ("mixed", JobList::is_mixed),
    ("a job below the order", has_job_below_order),
    ("neighbours of other size in one algebra", sizes_differ),
    ("neighbours of other size and algebra", neighbours_differ),
    ("one hall at two sizes", has_same_hall),
    ("one hall in two algebras", has_hall_in_two_algebras),
    ("order 32 with 16 jobs", is_largest),
    ("a far pair and one of none", has_far_and_none),
];

/// A sheet of more bytes than this has words of five digits nearly everywhere.
const LONG_SHEET: usize = 439_000;
const LONG_SHEETS: &str = "sheets over 439000 bytes";

struct Comparison {
    program: PathBuf,
    random: Random,
    tally: Tally,
}

fn main() -> ExitCode {
    let Some((program, percent)) = arguments() else {
        println!("compare_bench PROGRAM [PERCENT]");
        return ExitCode::FAILURE;
    };
    let mut comparison = Comparison {
        program,
        random: Random::new(SEED),
        tally: Tally::default(),
    };
    let compared = comparison.compare_all(percent);
    let tally = &comparison.tally;
    let (accepted, mixed) = (tally.met("accepted"), tally.met("lists, mixed"));
    let texts = accepted + tally.sum("refused with ");
    let summary = format!("{texts} texts, {accepted} accepted, {mixed} of them mixed");
    conclude("compare_bench", tally, compared.map(|()| summary))
}

fn arguments() -> Option<(PathBuf, usize)> {
    let mut arguments = env::args_os().skip(1);
    let program = arguments.next()?;
    let percent = match arguments.next() {
        Some(percent) => percent.to_str()?.parse().ok()?,
        None => 100,
    };
    let is_last = arguments.next().is_none();
    is_last.then(|| (program.into(), percent))
}

impl Comparison {
    fn compare_all(&mut self, percent: usize) -> Result<(), String> {
        self.tally.expect("accepted");
        self.tally.expect(LONG_SHEETS);
        self.tally.expect_each("lists, ", &LISTS);
        for number in REFUSALS {
            self.tally.expect(format!("refused with {number}"));
        }
        for (text, _) in border_texts() {
            self.compare(&text)?;
        }
        for (count, make) in TEXTS {
            for _ in 0..count * percent / 100 {
                let text = make(&mut self.random);
                self.compare(&text)?;
            }
        }
        for number in NUMBERS {
            for _ in 0..DAMAGED_TEXTS * percent / 100 {
                let text = damaged_text(&mut self.random, number);
                self.compare(&text)?;
            }
        }
        Ok(())
    }

    /// One text in sixteen comes to the program in pieces.
    fn compare(&mut self, text: &[u8]) -> Result<(), String> {
        let wanted = self.wanted(text);
        let pieces = match self.random.one_in(16) {
            true => self.random.between(2, 4),
            false => 1,
        };
        match printed(&self.program, text, pieces) {
            Ok(got) => match first_difference(&got, &wanted) {
                Some(what) => Err(kept(text, &what)),
                None => Ok(()),
            },
            Err(error) => Err(format!("{}: {error}", self.program.display())),
        }
    }

    fn wanted(&mut self, text: &[u8]) -> Vec<u8> {
        let list = match read(text) {
            Ok(list) => list,
            Err(refusal) => {
                self.tally.count(format!("refused with {}", refusal.number));
                return refused(refusal);
            }
        };
        self.tally.count("accepted");
        self.tally.look("lists, ", &LISTS, &list);
        let outcome = run(&list);
        let checked = check(&list, &outcome);
        assert_eq!(checked, Ok(()), "the reference contradicts itself");
        let sheet = accepted(&list, &outcome);
        if sheet.len() > LONG_SHEET {
            self.tally.count(LONG_SHEETS);
        }
        sheet
    }
}

/// Keeps the text: as it is, to be tried again, and escaped, to be read.
fn kept(text: &[u8], what: &str) -> String {
    let name = format!("compare_bench_{}", std::process::id());
    let kept = env::temp_dir().join(name);
    let escaped = kept.with_extension("escaped");
    let written =
        fs::write(&kept, text).and_then(|()| fs::write(&escaped, text.escape_ascii().to_string()));
    let (kept, escaped) = (kept.display(), escaped.display());
    format!("{what}\non the text in {kept} (escaped in {escaped}): {written:?}")
}
