//! Holds the proved elimination, and that of a range, through their C calls against the reference. Ends with status 1 at the
//! first difference, and where a kind of table or of call was not met.

use reference::comparison::{conclude, Comparison};
use reference::host_call::Proved;
use reference::ranges::comparison::{BETWEEN, RANGES, REFUSED};
use std::process::ExitCode;

const SEED: u64 = 0x5EED_0F0A_7AB1_E001;

fn main() -> ExitCode {
    let mut comparison = Comparison::new(Proved, SEED);
    let compared = comparison
        .compare_eliminations()
        .and_then(|()| comparison.compare_ranges());
    let tally = &comparison.tally;
    let (tables, refusals) = (tally.sum("tables in "), tally.sum("refusal "));
    // Each table is closed with its twin.
    let pairs = tables / 2;
    let [ranges, between, refused] = [RANGES, BETWEEN, REFUSED].map(|kind| tally.met(kind));
    let summary = format!(
        "{tables} tables in {pairs} pairs of the same links, {refusals} refusals, \
         {ranges} ranges with {between} tables between, {refused} refusals"
    );
    conclude("compare_elimination", tally, compared.map(|()| summary))
}
