//! The calls Start and Run beside the row-wise array: a list started once a round, and run to its end.

use crate::bench::timing::best_times;
use crate::calls::Calls;
use crate::host_call::Proved;
use crate::job_text::JobList;
use crate::systolic::checks::eliminations;
use crate::systolic::memory::{Call, OwnJobs, RunCall};
use crate::systolic::rows::RowArray;
use crate::systolic::state::total;
use std::hint::black_box;

/// The times of a round in nanoseconds, ours and rust's, in runs of `allowance` ticks.
pub fn array_times(list: &JobList, allowance: u16) -> [f64; 2] {
    let order = usize::from(list.order);
    let mut call = RunCall {
        state: vec![0; 4 + 3 * order * order],
        jobs: OwnJobs::of(list),
        allowance,
        scratch: vec![0; 2 * order],
        results: vec![0; list.weights.len()],
        made: 0,
    };
    let (mut rows, mut results) = (RowArray::start(list), call.results.clone());
    ours(list, &mut call);
    rust(list, &mut rows, allowance, &mut results);
    let wanted = eliminations(list);
    assert!(
        call.results == wanted && results == wanted,
        "a contender's result is wrong"
    );
    best_times([
        Box::new(|| ours(black_box(list), &mut call)),
        Box::new(|| rust(black_box(list), &mut rows, allowance, &mut results)),
    ])
}

fn ours(list: &JobList, call: &mut RunCall) {
    let order = list.order.into();
    assert_eq!(Proved.start(order, call.jobs.lent(), &mut call.state), 0);
    let mut left = total(order, list.sizes.len());
    while left > 0 {
        assert!(call.make(&Proved) == 0 && call.made > 0);
        left -= usize::from(call.made);
    }
}

fn rust(list: &JobList, rows: &mut RowArray, allowance: u16, results: &mut [u16]) {
    rows.restart();
    let mut left = total(list.order.into(), list.sizes.len());
    while left > 0 {
        left -= rows.run(allowance.into(), list, results);
    }
}
