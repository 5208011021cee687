//! The same array for the benchmark: planes of words, swept in place row by row from the last to the first, with loops
//! that the compiler may turn into vector code. As in the calls Start and Run, the jobs are lent to each run anew.

use crate::algebra::Algebra;
use crate::elimination::rust_loop::joined;
use crate::job_text::JobList;
use crate::systolic::part_starts;
use std::ops::Range;

pub struct RowArray {
    n: usize,
    jobs: usize,
    /// Where each job begins in the weights and the results.
    starts: Vec<usize>,
    tick: usize,
    c: Vec<u16>,
    /// A row has a word before its cells: what comes in at the left edge.
    a: Vec<u16>,
    /// There is a row before those of the cells: what comes in at the top edge.
    b: Vec<u16>,
}

/// A cell's s, divided by N: the quotient counts the passes of all jobs, the remainder is k.
#[derive(Clone, Copy)]
struct Step {
    passes: usize,
    k: usize,
}

impl Step {
    fn job(self) -> usize {
        self.passes / 4
    }

    fn pass(self) -> usize {
        self.passes % 4
    }

    /// Where s is smaller by `by`, which is below N and not above s.
    fn before(self, n: usize, by: usize) -> Step {
        match by <= self.k {
            true => Step {
                k: self.k - by,
                ..self
            },
            false => Step {
                passes: self.passes - 1,
                k: self.k + n - by,
            },
        }
    }
}

impl RowArray {
    /// The arguments are not tested, here nor in `run`.
    pub fn start(list: &JobList) -> RowArray {
        let order = usize::from(list.order);
        RowArray {
            n: order,
            jobs: list.sizes.len(),
            starts: part_starts(&list.sizes),
            tick: 0,
            c: vec![0; order * order],
            a: vec![0; order * (order + 1)],
            b: vec![0; (order + 1) * order],
        }
    }

    /// As started, in the same memory.
    pub fn restart(&mut self) {
        self.tick = 0;
        self.c.fill(0);
        self.a.fill(0);
        self.b.fill(0);
    }

    /// Returns the ticks made.
    pub fn run(&mut self, allowance: usize, list: &JobList, results: &mut [u16]) -> usize {
        let total = 4 * self.n * self.jobs + 2 * self.n - 2;
        let ticks = allowance.min(total - self.tick);
        for _ in 0..ticks {
            let top = Step {
                passes: self.tick / self.n,
                k: self.tick % self.n,
            };
            self.feed_top(list, top);
            for i in (0..self.n.min(self.tick + 1)).rev() {
                let columns = self.working(i);
                if !columns.is_empty() {
                    let step = top.before(self.n, i);
                    self.feed_left(list, i, step);
                    self.sum_row(list, i, step, columns.clone());
                    self.shift_row(i, step, columns.clone());
                    self.send_out(list, i, step, columns, results);
                }
            }
            self.tick += 1;
        }
        ticks
    }

    /// The columns of the cells in row i that make a step on this tick, which is not below i.
    fn working(&self, i: usize) -> Range<usize> {
        let s = self.tick - i;
        let first = (s + 1).saturating_sub(4 * self.n * self.jobs);
        first..self.n.min(s + 1)
    }

    /// Into the row above the cells; the bottom row still holds the words of before the tick.
    fn feed_top(&mut self, list: &JobList, top: Step) {
        let n = self.n;
        for j in self.working(0) {
            let step = top.before(n, j);
            self.b[j] = match step.pass() {
                0 => self.fed(list, step.job(), step.k, j),
                _ => self.b[n * n + j],
            };
        }
    }

    /// Into the word before row i. From 4NQ on the first cell takes nothing in.
    fn feed_left(&mut self, list: &JobList, i: usize, step: Step) {
        let (n, row) = (self.n, i * (self.n + 1));
        self.a[row] = match step.pass() {
            0 if step.job() < self.jobs => self.fed(list, step.job(), i, step.k),
            _ => self.a[row + n],
        };
    }

    fn fed(&self, list: &JobList, job: usize, i: usize, j: usize) -> u16 {
        let (algebra, size) = (list.algebras[job], usize::from(list.sizes[job]));
        if i == j {
            algebra.own()
        } else if i < size && j < size {
            list.weights[self.starts[job] + i * size + j]
        } else {
            algebra.none()
        }
    }

    /// c of the cells of row i, whose first cell is at `step`; the rows below have gone before.
    fn sum_row(&mut self, list: &JobList, i: usize, step: Step, columns: Range<usize>) {
        // Past the last job no cell sums. Else those that do are all on this job: a cell behind on the job before is in
        // its last pass.
        let Some(&algebra) = list.algebras.get(step.job()) else {
            return;
        };
        // s falls along the row: in column k a pass begins, and the cells after it are one pass behind.
        if step.pass() == 0 && columns.contains(&step.k) {
            self.c[i * self.n + step.k] = algebra.none();
        }
        let behind = columns.end.min(step.k + 1);
        let sums = match step.pass() {
            0 => columns.start..behind,
            3 => behind..columns.end,
            _ => columns,
        };
        // One match for a row: each arm is compiled for its own sum and product.
        match algebra {
            Algebra::Reach => self.sum_cells(i, sums, u16::max, u16::min),
            Algebra::Distance => self.sum_cells(i, sums, u16::min, joined),
            Algebra::Steepest => self.sum_cells(i, sums, u16::min, u16::max),
        }
    }

    /// What comes in to a cell lies before it in its row of `a`, and above it in `b`.
    #[inline(always)]
    fn sum_cells(
        &mut self,
        i: usize,
        columns: Range<usize>,
        sum: impl Fn(u16, u16) -> u16,
        product: impl Fn(u16, u16) -> u16,
    ) {
        let n = self.n;
        let c = &mut self.c[i * n..(i + 1) * n];
        let a = &self.a[i * (n + 1)..(i + 1) * (n + 1)];
        let above = &self.b[i * n..(i + 1) * n];
        let ins = a[columns.clone()].iter().zip(&above[columns.clone()]);
        for (c, (&a, &b)) in c[columns].iter_mut().zip(ins) {
            *c = sum(*c, product(a, b));
        }
    }

    /// a and b of the cells of row i, whose c is new.
    fn shift_row(&mut self, i: usize, step: Step, columns: Range<usize>) {
        let n = self.n;
        let c = &self.c[i * n..(i + 1) * n];
        let a = &mut self.a[i * (n + 1)..(i + 1) * (n + 1)];
        let (above, b) = self.b[i * n..(i + 2) * n].split_at_mut(n);
        a.copy_within(columns.clone(), columns.start + 1);
        b[columns.clone()].copy_from_slice(&above[columns.clone()]);
        // A cell's own k is its column in those with 2j = k modulo N.
        for twice in [step.k, step.k + n] {
            let j = twice / 2;
            if twice % 2 == 0 && columns.contains(&j) {
                a[j + 1] = c[j];
            }
        }
        // A cell's own k is its row in one column.
        let j = if i <= step.k {
            step.k - i
        } else {
            step.k + n - i
        };
        if columns.contains(&j) && step.before(n, j).pass() < 3 {
            b[j] = c[j];
        }
    }

    /// The last cell's new a, if it leaves and lies inside the job's size.
    fn send_out(
        &self,
        list: &JobList,
        i: usize,
        step: Step,
        columns: Range<usize>,
        results: &mut [u16],
    ) {
        let n = self.n;
        if columns.end < n {
            return;
        }
        let last = step.before(n, n - 1);
        if last.pass() == 3 {
            let (size, k) = (usize::from(list.sizes[last.job()]), last.k);
            if i < size && k < size {
                results[self.starts[last.job()] + i * size + k] = self.a[i * (n + 1) + n];
            }
        }
    }
}
