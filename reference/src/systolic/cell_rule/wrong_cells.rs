//! Arrays whose cells or feeder take another algebra than that of the job they are on: the lists that are compared on
//! have to show each of them.

use super::*;
use crate::job_text::JobList;
use crate::random::Random;
use crate::systolic::checks::eliminations;
use crate::systolic::state::total;
use crate::texts::lists::small_list;

const LISTS: usize = 300;

/// What is done to an array before or after the tick of this number. The algebras are those of the jobs.
type Change = fn(&mut Array, &[Algebra], usize);

/// Before each tick and after it.
const FAULTS: [(&str, Change, Change); 7] = [
    ("cells in the first job's algebra", first_job, nothing),
    ("cells in that of the job before", job_before, nothing),
    ("cells in that of the first cell's job", first_cell, nothing),
    ("cells in that of the last cell's job", last_cell, nothing),
    ("the own word of the job before", own_before, nothing),
    ("padding of the job before", padding_before, nothing),
    ("c begun with none of the job before", nothing, begun_before),
];

fn nothing(_: &mut Array, _: &[Algebra], _: usize) {}

fn set_all(array: &mut Array, algebra: Algebra) {
    for job in &mut array.jobs {
        job.algebra = algebra;
    }
}

fn first_job(array: &mut Array, algebras: &[Algebra], _: usize) {
    set_all(array, algebras[0]);
}

fn job_before(array: &mut Array, algebras: &[Algebra], _: usize) {
    for (job, &before) in array.jobs.iter_mut().skip(1).zip(algebras) {
        job.algebra = before;
    }
}

fn first_cell(array: &mut Array, algebras: &[Algebra], tick: usize) {
    let q = tick / (4 * array.n);
    set_all(array, algebras[q.min(algebras.len() - 1)]);
}

fn last_cell(array: &mut Array, algebras: &[Algebra], tick: usize) {
    let q = tick.saturating_sub(2 * array.n - 2) / (4 * array.n);
    set_all(array, algebras[q]);
}

fn own_before(array: &mut Array, algebras: &[Algebra], _: usize) {
    let n = array.n;
    for (job, before) in array.jobs.iter_mut().skip(1).zip(algebras) {
        for i in 0..n {
            job.table[i * n + i] = before.own();
        }
    }
}

fn padding_before(array: &mut Array, algebras: &[Algebra], _: usize) {
    let n = array.n;
    for (job, before) in array.jobs.iter_mut().skip(1).zip(algebras) {
        for (i, j) in (0..n * n).map(|at| (at / n, at % n)) {
            if i != j && i.max(j) >= job.size {
                job.table[i * n + j] = before.none();
            }
        }
    }
}

/// A cell that has begun a job on this tick, its k being 0.
fn begun_before(array: &mut Array, algebras: &[Algebra], tick: usize) {
    let n = array.n;
    for (i, j) in (0..n * n).map(|at| (at / n, at % n)) {
        for q in 1..algebras.len() {
            if tick == 4 * n * q + i + j {
                let cell = &mut array.cells[i * n + j];
                cell.c = algebras[q].sum(cell.c, algebras[q - 1].none());
                cell.a = if j == 0 { cell.c } else { cell.a };
                cell.b = if i == 0 { cell.c } else { cell.b };
            }
        }
    }
}

fn results(list: &JobList, before: Change, after: Change) -> Vec<u16> {
    let n = usize::from(list.order);
    let mut array = Array::new(n, &list.jobs(), &vec![0; 3 * n * n]);
    let mut results = vec![0; list.weights.len()];
    for tick in 0..total(n, list.sizes.len()) {
        before(&mut array, &list.algebras, tick);
        array.tick(tick, &mut results);
        after(&mut array, &list.algebras, tick);
    }
    results
}

/// In mixed lists alone: in a plain one nothing is wrong.
#[test]
fn each_is_found() {
    let mut random = Random::new(22);
    let lists: Vec<JobList> = (0..LISTS).map(|_| small_list(&mut random)).collect();
    for (what, before, after) in FAULTS {
        let is_found = |list: &&JobList| results(list, before, after) != eliminations(list);
        let found: Vec<&JobList> = lists.iter().filter(is_found).collect();
        assert!(!found.is_empty(), "{what}");
        assert!(found.iter().all(|list| list.is_mixed()), "{what}");
    }
}
