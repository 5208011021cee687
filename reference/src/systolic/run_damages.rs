//! What can be wrong with a run.

use crate::damages::Damage;
use crate::job_text::MAX_JOBS;
use crate::random::Random;
use crate::systolic::memory::RunCall;
use crate::systolic::state::{total, Header};
use crate::systolic::wrong_parts::*;

/// From the first test to the last: each later damage is one beside those that were made.
pub const RUN_DAMAGES: [Damage<RunCall>; 14] = [
    ("order", 10, damage_order),
    // Where the algebra was before K8.
    ("second word", 10, |random, call, _| {
        call.state[1] = high_word(random, 1, 0);
    }),
    ("number of jobs", 10, damage_jobs),
    ("tick", 10, damage_tick),
    ("length of the state", 10, |random, call, right| {
        let len = wrong_state_len(random, right.header().order);
        call.state.resize(len, 0);
    }),
    ("a state too short", 10, |random, call, _| {
        call.state.truncate(random.below(4));
    }),
    ("number of sizes", 11, damage_count),
    ("number of algebras", 11, |random, call, right| {
        let count = random.not(right.header().jobs, &[1, 16, 17]);
        change_algebras(random, &mut call.jobs, count);
    }),
    ("an algebra", 1, |random, call, _| {
        damage_algebra(random, &mut call.jobs);
    }),
    ("a size", 8, |random, call, right| {
        damage_size(random, &mut call.jobs, right.header().order);
        fit_results(call);
    }),
    ("length of the weights", 3, |random, call, right| {
        let len = wrong_words_len(random, &call.jobs, right.header().order);
        call.jobs.weights.resize(len, 1);
    }),
    ("length of the scratch", 12, |random, call, right| {
        let len = wrong_scratch_len(random, right.header().order);
        call.scratch.resize(len, 7);
    }),
    ("length of the results", 4, |random, call, right| {
        let len = wrong_words_len(random, &call.jobs, right.header().order);
        call.results.resize(len, 7);
    }),
    // In a job in reach.
    ("a word above 1", 5, |random, call, _| {
        damage_word(random, &mut call.jobs);
    }),
];

/// State and scratch stay as they are, or fit the new order.
fn damage_order(random: &mut Random, call: &mut RunCall, right: &RunCall) {
    let header = right.header();
    let wrong = match random.one_in(3) {
        true => 0,
        false => high_word(random, 33, header.order as u16),
    };
    call.state[0] = wrong;
    let order = usize::from(wrong);
    if 3 * order * order <= MOST_WORDS && random.one_in(2) {
        call.state.resize(4 + 3 * order * order, 0);
        call.scratch.resize(2 * order, 7);
    }
}

/// The jobs stay as they are, or are as many as the state says.
fn damage_jobs(random: &mut Random, call: &mut RunCall, right: &RunCall) {
    let header = right.header();
    let wrong = match random.one_in(3) {
        true => 0,
        false => high_word(random, 17, header.jobs as u16),
    };
    call.state[2] = wrong;
    if wrong <= 300 && random.one_in(2) {
        change_count(random, &mut call.jobs, header.order, wrong.into());
        fit_results(call);
    }
}

fn damage_tick(random: &mut Random, call: &mut RunCall, right: &RunCall) {
    let header = right.header();
    let last = total(header.order, header.jobs) as u16;
    let tick = header.tick as u16;
    let above = last + random.between(1, 5000) as u16;
    call.state[3] = random.pick(&[last + 1, last + 1, above, 32768 + tick, 65535]);
}

/// Some numbers are right for another list. Else the state says more jobs, which is no fault of its own.
fn damage_count(random: &mut Random, call: &mut RunCall, right: &RunCall) {
    let header = right.header();
    let right = header.jobs;
    let state_is_right = Header::read(&call.state).is_some();
    if state_is_right && right < MAX_JOBS && random.one_in(3) {
        call.state[2] = random.between(right + 1, MAX_JOBS) as u16;
        return;
    }
    let count = random.not(right, &[1, 16, 17]);
    change_count(random, &mut call.jobs, header.order, count);
    fit_results(call);
}

/// As many words as the weights have, fitted or not.
fn fit_results(call: &mut RunCall) {
    call.results.resize(call.jobs.weights.len(), 7);
}

/// The scratch of before K5, of another order, or a plane too.
fn wrong_scratch_len(random: &mut Random, order: usize) -> usize {
    let of_other = 2 * random.between(1, 33);
    let before = 2 * order * order;
    random.not(
        2 * order,
        &[before, before, order * order, of_other, of_other],
    )
}
