//! Where Start and Run turn back: their rows of the table in document 01, with K5 of document 02 for test 12 and K8 for
//! the algebras.

use crate::algebra::Algebra;
use crate::job_text::{self, Job, MAX_JOBS, MAX_ORDER};
use crate::systolic::state::Header;
use crate::systolic::Jobs;

/// The numbers of the refusals, in the order of their tests.
pub const START_NUMBERS: [u32; 7] = [1, 6, 7, 8, 3, 9, 5];
pub const RUN_NUMBERS: [u32; 8] = [10, 11, 1, 8, 3, 12, 4, 5];

/// The number of the first test that applies, or 0 where the call is accepted.
pub fn start_refusal(order: usize, jobs: Jobs, state_len: usize) -> u32 {
    let count = jobs.sizes.len();
    if jobs.has_unknown_algebra() {
        1
    } else if order == 0 || order > MAX_ORDER.into() {
        6
    } else if count == 0 || count > MAX_JOBS || jobs.algebras.len() != count {
        7
    } else if jobs.has_size_outside(order) {
        8
    } else if jobs.weights.len() != jobs.words() {
        3
    } else if state_len != 4 + 3 * order * order {
        9
    } else if jobs.has_foreign_word() {
        5
    } else {
        0
    }
}

/// The same for Run.
pub fn run_refusal(state: &[u16], jobs: Jobs, scratch_len: usize, results_len: usize) -> u32 {
    let Some(header) = Header::read(state) else {
        return 10;
    };
    if jobs.sizes.len() != header.jobs || jobs.algebras.len() != header.jobs {
        11
    } else if jobs.has_unknown_algebra() {
        1
    } else if jobs.has_size_outside(header.order) {
        8
    } else if jobs.weights.len() != jobs.words() {
        3
    } else if scratch_len != 2 * header.order {
        12
    } else if results_len != jobs.words() {
        4
    } else if jobs.has_foreign_word() {
        5
    } else {
        0
    }
}

impl<'a> Jobs<'a> {
    /// The sum of n².
    pub fn words(&self) -> usize {
        let squares = self.sizes.iter().map(|&size| usize::from(size).pow(2));
        squares.sum()
    }

    fn has_size_outside(&self, order: usize) -> bool {
        let mut sizes = self.sizes.iter().map(|&size| usize::from(size));
        sizes.any(|size| size == 0 || size > order)
    }

    /// Of all that are lent, however many.
    fn has_unknown_algebra(&self) -> bool {
        let mut algebras = self.algebras.iter();
        algebras.any(|&number| Algebra::numbered(number).is_none())
    }

    /// Where the tests before 5 have passed.
    fn has_foreign_word(&self) -> bool {
        let jobs = self.tested();
        let mut in_reach = jobs.iter().filter(|job| job.algebra == Algebra::Reach);
        in_reach.any(|job| job.weights.iter().any(|&word| word > 1))
    }

    /// The jobs one by one, where the algebras are known and the lengths fit.
    pub fn tested(&self) -> Vec<Job<'a>> {
        let algebras = self.algebras.iter();
        let algebras = algebras.map(|&number| Algebra::numbered(number).expect("it is tested"));
        job_text::jobs(algebras, self.sizes, self.weights)
    }
}
