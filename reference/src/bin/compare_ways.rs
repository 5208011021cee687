//! Holds the proved search for ways, through its C call, against the reference. Ends with status 1 at the first difference,
//! and where a kind of call was not met.

use reference::comparison::{conclude, Comparison};
use reference::host_call::Proved;
use reference::ways::comparison::{NO_WAYS, WAYS};
use std::process::ExitCode;

const SEED: u64 = 0x5EED_0F0A_7AB1_E004;

fn main() -> ExitCode {
    let mut comparison = Comparison::new(Proved, SEED);
    let compared = comparison.compare_ways();
    let tally = &comparison.tally;
    let tables = tally.sum("tables in ");
    let refusals = tally.met(NO_WAYS) + tally.sum("damaged, refused with ");
    let summary = format!(
        "{tables} tables, {} ways, {refusals} refusals",
        tally.met(WAYS)
    );
    conclude("compare_ways", tally, compared.map(|()| summary))
}
