//! Tests of Start and Run that are wrong about the algebras: the damages that compare_array makes, and right calls, have
//! to tell each of them from the right ones.

use reference::damages::{damage_sets, damaged, Damage, Set};
use reference::job_text::JobList;
use reference::random::Random;
use reference::systolic::memory::{OwnJobs, RunCall, StartCall};
use reference::systolic::moments::{any_list_where, right_run, right_start};
use reference::systolic::refusal::{run_refusal, start_refusal};
use reference::systolic::run_damages::RUN_DAMAGES;
use reference::systolic::start_damages::START_DAMAGES;

/// One set of damages in so many is made here.
const EVERY: usize = 50;
const RIGHT_CALLS: usize = 100;

/// What wrong tests see in the place of the call.
type Fault<Call> = (&'static str, fn(&mut Call));

const FAULTS_OF_BOTH: [Fault<OwnJobs>; 4] = [
    ("5 by the first job's algebra", |jobs| {
        let first = jobs.algebras.first().copied().unwrap_or(0);
        set_known(jobs, first);
    }),
    ("5 in every job where one is in reach", |jobs| {
        if jobs.algebras.contains(&0) {
            set_known(jobs, 0);
        }
    }),
    ("1 looks at the first algebra alone", |jobs| {
        let others = jobs.algebras.iter_mut().skip(1);
        others.for_each(|algebra| *algebra = (*algebra).min(2));
    }),
    ("the number of algebras is not tested", |jobs| {
        jobs.algebras.resize(jobs.sizes.len(), 1);
    }),
];

/// The unknown ones stay.
fn set_known(jobs: &mut OwnJobs, number: u16) {
    let known = jobs.algebras.iter_mut().filter(|algebra| **algebra < 3);
    known.for_each(|algebra| *algebra = number);
}

fn has_unknown(jobs: &OwnJobs) -> bool {
    jobs.algebras.iter().any(|&algebra| algebra > 2)
}

/// Numbers of calls that no fault of both has.
type Wrong<Call> = (&'static str, fn(Call) -> u32);

const WRONG_STARTS: [Wrong<StartCall>; 2] = [
    (
        "1 looks at as many algebras as there are sizes",
        |mut call| {
            let beyond = call.jobs.algebras.iter_mut().skip(call.jobs.sizes.len());
            beyond.for_each(|algebra| *algebra = 0);
            start_number(&call)
        },
    ),
    ("7 before 1", |mut call| {
        let right = start_number(&call);
        call.jobs.algebras.fill(1);
        match start_number(&call) {
            7 => 7,
            _ => right,
        }
    }),
];

const WRONG_RUNS: [Wrong<RunCall>; 3] = [
    ("the second word is not tested", |mut call| {
        let second = call.state.iter_mut().skip(1).take(1);
        second.for_each(|word| *word = 0);
        run_number(&call)
    }),
    ("an algebra in the second word is taken", |mut call| {
        let second = call.state.iter_mut().skip(1).take(1);
        second.filter(|word| **word < 3).for_each(|word| *word = 0);
        run_number(&call)
    }),
    ("1 before 11", |call| match run_number(&call) {
        11 if has_unknown(&call.jobs) => 1,
        number => number,
    }),
];

fn start_number(call: &StartCall) -> u32 {
    start_refusal(call.order, call.jobs.lent(), call.state.len())
}

fn run_number(call: &RunCall) -> u32 {
    let (scratch, results) = (call.scratch.len(), call.results.len());
    run_refusal(&call.state, call.jobs.lent(), scratch, results)
}

/// Calls with some of the sets of damages, and right ones.
fn some_calls<Call: Clone>(
    random: &mut Random,
    all: &'static [Damage<Call>],
    right: fn(&mut Random, &JobList) -> Call,
) -> Vec<Call> {
    let mut sets: Vec<Set<Call>> = damage_sets(random, all)
        .into_iter()
        .step_by(EVERY)
        .collect();
    sets.extend(vec![Vec::new(); RIGHT_CALLS]);
    let call = |set: &Set<Call>| {
        let list = any_list_where(random, JobList::has_reach);
        let right = right(random, &list);
        damaged(random, &right, set)
    };
    sets.iter().map(call).collect()
}

/// Whether each of the wrong tests gives another number for some call.
fn assert_found<Call: Clone>(calls: &[Call], right: fn(&Call) -> u32, wrong: &[Wrong<Call>]) {
    for (what, wrong) in wrong {
        let mut calls = calls.iter();
        assert!(
            calls.any(|call| wrong(call.clone()) != right(call)),
            "{what}"
        );
    }
}

/// The same of a fault of both: a call whose jobs are seen otherwise is told from the right one.
fn assert_both_found<Call: Clone>(
    calls: &[Call],
    jobs: fn(&mut Call) -> &mut OwnJobs,
    number: fn(&Call) -> u32,
) {
    for (what, fault) in FAULTS_OF_BOTH {
        let is_found = calls.iter().any(|call| {
            let mut seen = call.clone();
            fault(jobs(&mut seen));
            number(&seen) != number(call)
        });
        assert!(is_found, "{what}");
    }
}

#[test]
fn wrong_starts_are_found() {
    let calls = some_calls(&mut Random::new(20), &START_DAMAGES, right_start);
    assert_found(&calls, start_number, &WRONG_STARTS);
    assert_both_found(&calls, |call| &mut call.jobs, start_number);
}

#[test]
fn wrong_runs_are_found() {
    let calls = some_calls(&mut Random::new(21), &RUN_DAMAGES, right_run);
    assert_found(&calls, run_number, &WRONG_RUNS);
    assert_both_found(&calls, |call| &mut call.jobs, run_number);
}
