//! The sheet as quickly as plain Rust makes it: the row-wise array, and lines by job and diagonal, since jobs never share
//! a tick. For the benchmark.

use crate::bench::sheet::{refused, written};
use crate::job_text::{read, JobList};
use crate::systolic::part_starts;
use crate::systolic::rows::RowArray;
use std::io::Write;

pub fn row_sheet(text: &[u8]) -> Vec<u8> {
    match read(text) {
        Ok(list) => accepted(&list),
        Err(refusal) => refused(refusal),
    }
}

fn accepted(list: &JobList) -> Vec<u8> {
    let starts = part_starts(&list.sizes);
    let mut array = RowArray::start(list);
    let mut results = vec![0; list.weights.len()];
    let ticks = array.run(65_535, list, &mut results);
    let mut printed = Vec::with_capacity(64 + 29 * results.len());
    print(
        &mut printed,
        format_args!("(jobs {} ticks {ticks})\n", list.sizes.len()),
    );
    for (job, &start) in starts.iter().enumerate() {
        print_job(&mut printed, list, job, &results[start..]);
    }
    printed
}

fn print_job(printed: &mut Vec<u8>, list: &JobList, job: usize, part: &[u16]) {
    let (n, size) = (usize::from(list.order), usize::from(list.sizes[job]));
    for sum in 0..2 * size - 1 {
        let tick = 4 * n * job + 4 * n - 1 + sum;
        for row in (sum + 1).saturating_sub(size)..size.min(sum + 1) {
            let column = sum - row;
            let word = written(list.algebras[job], part[row * size + column]);
            print(
                printed,
                format_args!("(out {job} {row} {column} {size} {tick} {word})\n"),
            );
        }
    }
}

fn print(printed: &mut Vec<u8>, line: std::fmt::Arguments) {
    printed.write_fmt(line).expect("a vector takes all bytes");
}
