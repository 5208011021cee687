//! Holds the proved reader of road files, through its C call, against the reference, and the program over it, run as a
//! process.
//!
//!     compare_road PROGRAM
//!
//! Ends with status 1 at the first difference, and where a kind of file was not met.

use reference::bench::program_call::told;
use reference::comparison::{conclude, Comparison};
use reference::host_call::Proved;
use reference::road::big::{all_pairs, long_comments, many_arcs, mostly_comments, padded};
use reference::road::comparison::Program;
use reference::road::{COUNT, FORM, LONGEST, RANGE};
use std::env;
use std::path::PathBuf;
use std::process::ExitCode;

const SEED: u64 = 0x5EED_0F0A_7AB1_E007;
/// About 30 megabytes.
const BIG_ARCS: usize = 2_200_000;
const BIG_COMMENTS: usize = 30;

fn main() -> ExitCode {
    let Some(path) = env::args_os().nth(1).map(PathBuf::from) else {
        println!("compare_road PROGRAM");
        return ExitCode::FAILURE;
    };
    let program = |file: &[u8], pieces: usize| {
        told(&path, file, pieces).map_err(|error| format!("{}: {error}", path.display()))
    };
    let mut comparison = Comparison::new(Proved, SEED);
    let compared = comparison.compare_roads(&program);
    let compared = compared.and_then(|()| compare_big(&mut comparison));
    let compared = compared.and_then(|()| compare_longest(&mut comparison, &program));
    let tally = &comparison.tally;
    let (files, refused) = (tally.sum("answers, "), tally.sum("answers, refused"));
    let summary = format!("{files} files, {refused} refused");
    conclude("compare_road", tally, compared.map(|()| summary))
}

/// Many arcs and long comments: right, with an arc too many, and with a last line that is refused.
fn compare_big(comparison: &mut Comparison<Proved>) -> Result<(), String> {
    let random = &mut comparison.random;
    let files = [
        many_arcs(random, 100_000),
        all_pairs(random),
        many_arcs(random, BIG_ARCS),
        long_comments(random, BIG_COMMENTS),
        mostly_comments(random, 1_000_000),
    ];
    for right in files {
        for (end, number) in [
            ("", 0),
            ("a 1 2 3", COUNT),
            ("a 1 2 3 ", FORM),
            ("a 1 0 3", RANGE),
        ] {
            let file = [&right, end.as_bytes()].concat();
            _ = comparison.compare_file(&file, Some(number))?;
        }
    }
    Ok(())
}

/// Of the program's longest length and of one byte more.
fn compare_longest(
    comparison: &mut Comparison<Proved>,
    program: &impl Program,
) -> Result<(), String> {
    let random = &mut comparison.random;
    // Some 13 bytes an arc.
    let arcs = many_arcs(random, 70_000);
    let comments = mostly_comments(random, 500_000);
    let refused = [comments.as_slice(), b"a 1 2 3\n"].concat();
    for (file, number) in [(arcs, 0), (comments, 0), (refused, COUNT)] {
        for len in [LONGEST, LONGEST + 1] {
            for has_last_lf in [true, false] {
                let file = padded(file.clone(), len, has_last_lf);
                let answer = comparison.compare_file(&file, Some(number))?;
                comparison.compare_printed(&file, answer, 1, program)?;
            }
        }
    }
    Ok(())
}
