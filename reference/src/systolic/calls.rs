//! The calls Start and Run, as "Start and run" in document 01 and K5 and K8 of document 02 state them, on lent memory.

use crate::systolic::cell_rule::Array;
use crate::systolic::refusal::{run_refusal, start_refusal};
use crate::systolic::state::Header;
use crate::systolic::{Jobs, LentRun};

/// Returns 0, or the number of the refusal.
pub fn start(order: usize, jobs: Jobs, state: &mut [u16]) -> u32 {
    let number = start_refusal(order, jobs, state.len());
    if number == 0 {
        state.fill(0);
        state[..3].copy_from_slice(&[order as u16, 0, jobs.sizes.len() as u16]);
    }
    number
}

/// The same of a run.
pub fn run(lent: &mut LentRun) -> u32 {
    let (scratch, results) = (&mut *lent.scratch, &mut *lent.results);
    let number = run_refusal(lent.state, lent.jobs, scratch.len(), results.len());
    if number != 0 {
        return number;
    }
    let header = Header::read(lent.state).expect("the state is tested");
    let ticks = header.ticks_left().min(lent.allowance.into());
    let end = header.tick + ticks;
    let mut array = Array::new(header.order, &lent.jobs.tested(), &lent.state[4..]);
    for tick in header.tick..end {
        array.tick(tick, results);
    }
    lent.state[3] = end as u16;
    lent.state[4..].copy_from_slice(&array.planes());
    // The rule needs none of it, but it is left zero, also where no tick is made.
    scratch.fill(0);
    *lent.made = ticks as u16;
    0
}
