//! Holds the proved calls Start and Run, through their C calls, against the reference. Ends with status 1 at the first
//! difference, and where a kind of call was not met.

use reference::comparison::{conclude, Comparison};
use reference::host_call::Proved;
use std::process::ExitCode;

const SEED: u64 = 0x5EED_0F0A_7AB1_E005;

fn main() -> ExitCode {
    let mut comparison = Comparison::new(Proved, SEED);
    let compared = comparison.compare_array();
    let tally = &comparison.tally;
    let (starts, runs) = (tally.met("Start accepted"), tally.met("Run accepted"));
    let refused = ["Start", "Run"].map(|call| tally.sum(&format!("{call} refused with ")));
    let pairs = ["one array", "two arrays"].map(|by| tally.met(&format!("pairs by {by}, ")));
    let summary = format!(
        "{} lists, {} of them mixed, {starts} starts and {} refused, {runs} runs and {} refused, {} pairs of the same links",
        tally.met("lists"),
        tally.met("mixed lists"),
        refused[0],
        refused[1],
        pairs.iter().sum::<usize>() + tally.met("pairs one each way, ")
    );
    conclude("compare_array", tally, compared.map(|()| summary))
}
