//! What document 01 says of a whole run in formulas, to hold the array of `systolic` against: when each word leaves,
//! and which word it is.

use crate::elimination::eliminate;
use crate::job_text::{Job, JobList};
use crate::systolic::state::total;
use crate::systolic::{Leaving, Outcome};

/// Says what is wrong with the outcome.
pub fn check(list: &JobList, outcome: &Outcome) -> Result<(), String> {
    let total = total(list.order.into(), list.sizes.len());
    if outcome.ticks != total {
        return Err(format!("{} ticks made, wanted {total}", outcome.ticks));
    }
    let place = |leaving: &Leaving| (leaving.job, leaving.row, leaving.column);
    let mut leavings = outcome.leavings.clone();
    leavings.sort_by_key(place);
    if leavings != wanted_leavings(list) {
        return Err("words leave on other ticks than 4Nq + 4N - 1 + i + k".to_string());
    }
    if outcome.results != eliminations(list) {
        return Err("the results are not the words of the eliminations".to_string());
    }
    Ok(())
}

/// Every entry of every job once, job by job and row by row.
fn wanted_leavings(list: &JobList) -> Vec<Leaving> {
    let n = usize::from(list.order);
    let jobs = list.jobs().into_iter().enumerate();
    let leavings = jobs.flat_map(|(job, Job { size, .. })| {
        (0..size * size).map(move |at| {
            let (row, column) = (at / size, at % size);
            let tick = 4 * n * job + 4 * n - 1 + row + column;
            Leaving {
                job,
                row,
                column,
                tick,
            }
        })
    });
    leavings.collect()
}

/// Each job eliminated by itself in its own algebra, and not padded.
pub fn eliminations(list: &JobList) -> Vec<u16> {
    let jobs = list.jobs().into_iter();
    jobs.flat_map(|job| eliminate(job.algebra, job.size, job.weights))
        .collect()
}
