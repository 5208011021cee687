//! "Feeder" and "Cell rule" in document 01, with K8 of document 02: one tick of every cell, in the algebra of the job it
//! is on, on registers that hold any words. It is not meant to be fast, but what depends on s alone is worked out once.

use crate::algebra::Algebra;
use crate::job_text::Job;
use crate::systolic::Leaving;

/// A job as it is fed, and where its results go.
struct Fed {
    algebra: Algebra,
    size: usize,
    /// Where its part of the results begins.
    start: usize,
    /// Padded to the order with none, and the whole diagonal the own word.
    table: Vec<u16>,
}

impl Fed {
    fn new(order: usize, start: usize, job: &Job) -> Fed {
        let (algebra, size) = (job.algebra, job.size);
        let mut table = vec![algebra.none(); order * order];
        for i in 0..size {
            for j in 0..size {
                table[i * order + j] = job.weights[i * size + j];
            }
        }
        for i in 0..order {
            table[i * order + i] = algebra.own();
        }
        Fed {
            algebra,
            size,
            start,
            table,
        }
    }
}

#[derive(Clone, Copy)]
struct Cell {
    a: u16,
    b: u16,
    c: u16,
}

/// What s says: job q, pass p and number k.
#[derive(Clone, Copy)]
struct Step {
    q: usize,
    p: usize,
    k: usize,
}

pub struct Array {
    n: usize,
    jobs: Vec<Fed>,
    /// By s, from 0 to 4NQ - 1.
    steps: Vec<Step>,
    /// Row by row, the registers of before the tick.
    cells: Vec<Cell>,
}

impl Array {
    /// The planes are c, a and b, row by row. Nothing is tested.
    pub fn new(order: usize, jobs: &[Job], planes: &[u16]) -> Array {
        let area = order * order;
        let mut next = 0;
        let fed = jobs.iter().map(|job| {
            let start = next;
            next += job.weights.len();
            Fed::new(order, start, job)
        });
        let step = |s| Step {
            q: s / (4 * order),
            p: (s / order) % 4,
            k: s % order,
        };
        let cell = |at| Cell {
            c: planes[at],
            a: planes[area + at],
            b: planes[2 * area + at],
        };
        Array {
            n: order,
            jobs: fed.collect(),
            steps: (0..4 * order * jobs.len()).map(step).collect(),
            cells: (0..area).map(cell).collect(),
        }
    }

    pub fn planes(&self) -> Vec<u16> {
        let plane = |register: fn(&Cell) -> u16| self.cells.iter().map(register);
        let (c, a, b) = (
            plane(|cell| cell.c),
            plane(|cell| cell.a),
            plane(|cell| cell.b),
        );
        c.chain(a).chain(b).collect()
    }

    /// The last cell is the last to begin and the last to end.
    pub fn has_steps_left(&self, tick: usize) -> bool {
        match tick.checked_sub(2 * (self.n - 1)) {
            Some(s) => s < self.steps.len(),
            None => true,
        }
    }

    /// Makes the tick numbered `tick`, and says what left on it.
    pub fn tick(&mut self, tick: usize, results: &mut [u16]) -> Vec<Leaving> {
        let mut leavings = Vec::new();
        let mut after = self.cells.clone();
        for i in 0..self.n {
            for j in 0..self.n {
                // Nothing where s is negative or from 4NQ on: the cell keeps its registers.
                let s = tick.checked_sub(i + j);
                if let Some(&step) = s.and_then(|s| self.steps.get(s)) {
                    let cell = self.stepped(i, j, step);
                    after[i * self.n + j] = cell;
                    if step.p == 3 && j == self.n - 1 && self.send_out(i, step, cell.a, results) {
                        let (job, column) = (step.q, step.k);
                        leavings.push(Leaving {
                            job,
                            row: i,
                            column,
                            tick,
                        });
                    }
                }
            }
        }
        self.cells = after;
        leavings
    }

    /// Cell (i, j) after the step.
    fn stepped(&self, i: usize, j: usize, step: Step) -> Cell {
        let (n, Step { q, p, k }) = (self.n, step);
        let Fed { algebra, table, .. } = &self.jobs[q];
        let a_in = match j {
            0 if p == 0 => table[i * n + k],
            0 => self.cells[i * n + n - 1].a,
            _ => self.cells[i * n + j - 1].a,
        };
        let b_in = match i {
            0 if p == 0 => table[k * n + j],
            0 => self.cells[(n - 1) * n + j].b,
            _ => self.cells[(i - 1) * n + j].b,
        };
        let mut c = match (p, k) {
            (0, 0) => algebra.none(),
            _ => self.cells[i * n + j].c,
        };
        if p < 3 {
            c = algebra.sum(c, algebra.product(a_in, b_in));
        }
        Cell {
            a: if k == j { c } else { a_in },
            b: if k == i && p < 3 { c } else { b_in },
            c,
        }
    }

    /// Writes entry (i, k) of job q if it lies inside the job's size, and says whether it does.
    fn send_out(&self, i: usize, Step { q, k, .. }: Step, word: u16, results: &mut [u16]) -> bool {
        let &Fed { size, start, .. } = &self.jobs[q];
        let inside = i < size && k < size;
        if inside {
            results[start + i * size + k] = word;
        }
        inside
    }
}

#[cfg(test)]
mod wrong_cells;
