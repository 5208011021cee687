//! An array as a run may meet it: lists of every order, states in the middle that nobody started, and started ones that
//! were changed between two runs.

use crate::elimination::tables::Kind;
use crate::job_text::{JobList, MAX_JOBS, MAX_ORDER};
use crate::random::Random;
use crate::systolic::memory::{OwnJobs, RunCall, StartCall};
use crate::systolic::state::total;
use crate::texts::lists::{drawn_list, Sizes};

/// Mostly small, as their runs are short, and the largest orders more often than those below them.
pub fn any_list(random: &mut Random) -> JobList {
    let order = match random.below(40) {
        0..=31 => random.between(1, 8),
        32..=36 => random.between(1, MAX_ORDER.into()),
        37 => 31,
        _ => 32,
    };
    let most = random.pick(&[1, 2, 3, 4, 4, 6, MAX_JOBS]);
    let jobs = random.between(1, most);
    let sizes = random.pick(&Sizes::ALL);
    drawn_list(random, order, jobs, sizes, &Kind::ALL)
}

/// The first that fits.
pub fn any_list_where(random: &mut Random, fits: impl Fn(&JobList) -> bool) -> JobList {
    loop {
        let list = any_list(random);
        if fits(&list) {
            return list;
        }
    }
}

/// Of one kind: any, at the ends of the algebras' words, one word everywhere, or such as every algebra has.
pub fn any_words(random: &mut Random, len: usize) -> Vec<u16> {
    let kind = random.below(6);
    let one = random.word();
    let word = |random: &mut Random| match kind {
        0 => one,
        1 => random.below(2) as u16,
        2 | 3 => random.pick(&[0, 1, 2, 3, 32767, 32768, 65533, 65534, 65535]),
        _ => random.word(),
    };
    (0..len).map(|_| word(random)).collect()
}

/// A call of Start that is accepted, on a state of any words.
pub fn right_start(random: &mut Random, list: &JobList) -> StartCall {
    let order = usize::from(list.order);
    StartCall {
        order,
        jobs: OwnJobs::of(list),
        state: any_words(random, 4 + 3 * order * order),
    }
}

/// A run that is accepted, of a state that nobody started: any tick and any words.
pub fn right_run(random: &mut Random, list: &JobList) -> RunCall {
    let order = usize::from(list.order);
    let jobs = list.sizes.len();
    let tick = any_tick(random, order, jobs);
    let header = [list.order, 0, jobs as u16, tick as u16];
    RunCall {
        state: [&header[..], &any_words(random, 3 * order * order)].concat(),
        jobs: OwnJobs::of(list),
        allowance: random.word(),
        scratch: any_words(random, 2 * order),
        results: any_words(random, list.weights.len()),
        made: random.word(),
    }
}

/// Often at an end, or where a job follows another.
fn any_tick(random: &mut Random, order: usize, jobs: usize) -> usize {
    let last = total(order, jobs);
    let seam = 4 * order * random.between(1, jobs) + random.below(2 * order);
    let anywhere = random.between(0, last);
    random
        .pick(&[0, last, last - 1, seam, seam, anywhere, anywhere, anywhere])
        .min(last)
}

/// Changes what a run finds, in a way that leaves the state one that test 10 accepts.
pub fn alter(random: &mut Random, call: &mut RunCall) {
    let header = call.header();
    let (order, jobs) = (header.order, header.jobs);
    match random.below(8) {
        0 => call.state[4..].copy_from_slice(&any_words(random, 3 * order * order)),
        1 | 2 => {
            for _ in 0..random.between(1, 4) {
                let place = random.between(4, call.state.len() - 1);
                call.state[place] = any_words(random, 1)[0];
            }
        }
        3 => call.state[3] = any_tick(random, order, jobs) as u16,
        4 => call.results = any_words(random, call.results.len()),
        // A run reads the jobs lent to it in that call: here others than before, or one of them in another algebra,
        // which test 5 may refuse.
        5 => call.jobs.algebras[random.below(jobs)] = random.below(3) as u16,
        _ => {
            let sizes = random.pick(&Sizes::ALL);
            let others = drawn_list(random, order, jobs, sizes, &Kind::ALL);
            call.jobs = OwnJobs::of(&others);
            call.results = any_words(random, others.weights.len());
        }
    }
}

/// How a list is run: in one piece, a tick at a time, or in pieces of any length.
#[derive(Clone, Copy, Debug, PartialEq, Eq)]
pub enum Pace {
    Whole,
    Single,
    Pieces,
}

/// Large arrays are seldom run a tick at a time, as it takes long.
pub fn any_pace(random: &mut Random, order: usize) -> Pace {
    match order {
        0..=8 => random.pick(&[Pace::Whole, Pace::Single, Pace::Pieces, Pace::Pieces]),
        _ => random.pick(&[Pace::Whole, Pace::Pieces]),
    }
}

pub fn allowance(random: &mut Random, pace: Pace, call: &RunCall) -> u16 {
    let (n, left) = (call.header().order, call.header().ticks_left());
    let few = random.below(12);
    let some = random.below(left + 1);
    let past = random.pick(&[left, left + 1, left + 256, 65535, 65535]);
    let ticks = match pace {
        Pace::Whole => past,
        Pace::Single => 1,
        Pace::Pieces => {
            let passes = random.pick(&[n, n, 2 * n, 4 * n - 1, 4 * n]);
            random.pick(&[0, 1, 1, few, few, few, passes, passes, some, some, past])
        }
    };
    ticks as u16
}
