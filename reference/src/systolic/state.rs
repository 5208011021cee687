//! The words of a state: N, 0, Q, tick, then planes c, a, b of N times N words. Before K8 the second was the algebra.

use crate::job_text::{MAX_JOBS, MAX_ORDER};

/// The first four words, where they are those of a state.
#[derive(Clone, Copy, Debug)]
pub struct Header {
    pub order: usize,
    pub jobs: usize,
    pub tick: usize,
}

impl Header {
    /// Nothing where test 10 applies.
    pub fn read(state: &[u16]) -> Option<Header> {
        let [order, 0, jobs, tick, planes @ ..] = state else {
            return None;
        };
        let header = Header {
            order: usize::from(*order),
            jobs: usize::from(*jobs),
            tick: usize::from(*tick),
        };
        let fits = (1..=usize::from(MAX_ORDER)).contains(&header.order)
            && (1..=MAX_JOBS).contains(&header.jobs)
            && planes.len() == 3 * header.order * header.order
            && header.tick <= total(header.order, header.jobs);
        fits.then_some(header)
    }

    pub fn ticks_left(&self) -> usize {
        total(self.order, self.jobs) - self.tick
    }
}

/// The ticks of a whole list.
pub fn total(order: usize, jobs: usize) -> usize {
    4 * order * jobs + 2 * order - 2
}
