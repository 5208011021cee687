//! What the bench program prints, as the end of "Job text and bench program" in document 01 has it, with K1 and K8 of
//! document 02: the job's size after the column, and none by the job's own algebra.

use crate::algebra::Algebra;
use crate::job_text::{read, JobList, Refusal};
use crate::systolic::{part_starts, run, Outcome};

/// The bytes printed for the bytes of a text.
pub fn sheet(text: &[u8]) -> Vec<u8> {
    match read(text) {
        Ok(list) => accepted(&list, &run(&list)),
        Err(refusal) => refused(refusal),
    }
}

pub fn refused(Refusal { number, line }: Refusal) -> Vec<u8> {
    format!("(refused {number} {line})\n").into_bytes()
}

/// A line for each word that left, by tick, then row: the word is the one that the run left in the results.
pub fn accepted(list: &JobList, outcome: &Outcome) -> Vec<u8> {
    let (jobs, ticks) = (list.sizes.len(), outcome.ticks);
    let mut printed = format!("(jobs {jobs} ticks {ticks})\n");
    let starts = part_starts(&list.sizes);
    let mut leavings = outcome.leavings.clone();
    leavings.sort_by_key(|leaving| (leaving.tick, leaving.row));
    for leaving in leavings {
        let (job, row, column) = (leaving.job, leaving.row, leaving.column);
        let size = usize::from(list.sizes[job]);
        let word = outcome.results[starts[job] + row * size + column];
        let word = written(list.algebras[job], word);
        let tick = leaving.tick;
        printed += &format!("(out {job} {row} {column} {size} {tick} {word})\n");
    }
    printed.into_bytes()
}

pub fn written(algebra: Algebra, word: u16) -> String {
    match algebra {
        Algebra::Distance | Algebra::Steepest if word == algebra.none() => "-".to_string(),
        _ => word.to_string(),
    }
}
