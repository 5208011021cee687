//! What every comparison has: the calls that it is given, the inputs it draws, and what it has met.

use crate::calls::Calls;
use crate::random::Random;
use crate::tally::Tally;
use std::fmt::Debug;
use std::process::ExitCode;

pub struct Comparison<C> {
    pub calls: C,
    pub random: Random,
    pub tally: Tally,
}

/// Its parts are in the modules of the calls: each says where a call differs.
impl<C: Calls> Comparison<C> {
    pub fn new(calls: C, seed: u64) -> Comparison<C> {
        Comparison {
            calls,
            random: Random::new(seed),
            tally: Tally::default(),
        }
    }
}

/// What is wrong with a call, and with which: as much of it as can be tried by hand.
pub fn told_of(what: &str, call: &impl Debug) -> String {
    let call = format!("{call:?}");
    let shown: String = call.chars().take(2_000).collect();
    format!("{what}\n{shown}")
}

/// Prints what was met and how the comparison ended. Status 1 after a difference, and where a kind was not met.
pub fn conclude(name: &str, tally: &Tally, ended: Result<String, String>) -> ExitCode {
    if ended.is_ok() {
        tally.print();
    }
    match &ended {
        Ok(summary) => println!("{name}: {summary}, 0 differences"),
        Err(what) => println!("{name}: {what}"),
    }
    match ended.is_ok() && tally.all_met() {
        true => ExitCode::SUCCESS,
        false => ExitCode::FAILURE,
    }
}
