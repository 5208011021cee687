//! The cell array: a whole run of a list, and the calls Start and Run, over one cell rule.

pub mod calls;
pub mod cell_rule;
pub mod checks;
pub mod comparison;
pub mod kinds;
pub mod memory;
pub mod moments;
pub mod pairs;
pub mod refusal;
pub mod rows;
pub mod run_damages;
pub mod start_damages;
pub mod state;
pub mod wrong_parts;

use crate::job_text::JobList;
use crate::systolic::cell_rule::Array;

/// The jobs lent to a call, right or not: their algebras by number, one a job. A job's weights begin where the earlier
/// jobs' end, row by row.
#[derive(Clone, Copy, Debug)]
pub struct Jobs<'a> {
    pub algebras: &'a [u16],
    pub sizes: &'a [u16],
    pub weights: &'a [u16],
}

impl<'a> Jobs<'a> {
    pub fn of(algebras: &'a [u16], sizes: &'a [u16], weights: &'a [u16]) -> Jobs<'a> {
        Jobs {
            algebras,
            sizes,
            weights,
        }
    }
}

/// What a run is lent.
pub struct LentRun<'a> {
    pub state: &'a mut [u16],
    pub jobs: Jobs<'a>,
    pub allowance: u16,
    pub scratch: &'a mut [u16],
    pub results: &'a mut [u16],
    /// The ticks made are written here.
    pub made: &'a mut u16,
}

/// What a run to the end makes.
#[derive(Clone, Debug, PartialEq, Eq)]
pub struct Outcome {
    pub ticks: usize,
    /// The words that left, in the places of the weights.
    pub results: Vec<u16>,
    /// A record for each write to the results, in the order of the writes.
    pub leavings: Vec<Leaving>,
}

/// An entry of a job, and the tick on which it was seen to leave.
#[derive(Clone, Copy, Debug, PartialEq, Eq)]
pub struct Leaving {
    pub job: usize,
    pub row: usize,
    pub column: usize,
    pub tick: usize,
}

/// Ticks until each cell has made its 4NQ steps.
pub fn run(list: &JobList) -> Outcome {
    let order = usize::from(list.order);
    let mut array = Array::new(order, &list.jobs(), &vec![0; 3 * order * order]);
    let mut outcome = Outcome {
        ticks: 0,
        results: vec![0; list.weights.len()],
        leavings: Vec::new(),
    };
    while array.has_steps_left(outcome.ticks) {
        let leavings = array.tick(outcome.ticks, &mut outcome.results);
        outcome.leavings.extend(leavings);
        outcome.ticks += 1;
    }
    outcome
}

/// The index where each job's part begins.
pub fn part_starts(sizes: &[u16]) -> Vec<usize> {
    let squares = sizes.iter().map(|&size| usize::from(size).pow(2));
    squares
        .scan(0, |next, square| {
            let start = *next;
            *next += square;
            Some(start)
        })
        .collect()
}
