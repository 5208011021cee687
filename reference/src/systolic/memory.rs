//! Calls of Start and Run that hold their own memory, to be damaged, made twice and compared.

use crate::calls::{Calls, Model};
use crate::job_text::JobList;
use crate::lending::{word_difference, Lent};
use crate::random::Random;
use crate::systolic::refusal::{RUN_NUMBERS, START_NUMBERS};
use crate::systolic::state::Header;
use crate::systolic::{Jobs, LentRun};
use std::fmt::Debug;

#[derive(Clone, Debug, Default, PartialEq, Eq)]
pub struct OwnJobs {
    pub algebras: Vec<u16>,
    pub sizes: Vec<u16>,
    pub weights: Vec<u16>,
}

#[derive(Clone, Debug)]
pub struct StartCall {
    pub order: usize,
    pub jobs: OwnJobs,
    pub state: Vec<u16>,
}

#[derive(Clone, Debug)]
pub struct RunCall {
    pub state: Vec<u16>,
    pub jobs: OwnJobs,
    pub allowance: u16,
    pub scratch: Vec<u16>,
    pub results: Vec<u16>,
    pub made: u16,
}

impl OwnJobs {
    pub fn of(list: &JobList) -> OwnJobs {
        let algebras = list.algebras.iter();
        OwnJobs {
            algebras: algebras.map(|algebra| algebra.number() as u16).collect(),
            sizes: list.sizes.clone(),
            weights: list.weights.clone(),
        }
    }

    pub fn lent(&self) -> Jobs<'_> {
        Jobs::of(&self.algebras, &self.sizes, &self.weights)
    }
}

/// What Start and Run have in common.
pub trait Call: Clone + Debug + 'static {
    const NAME: &'static str;
    /// Of the refusals, in the order of their tests.
    const NUMBERS: &'static [u32];

    fn jobs(&mut self) -> &mut OwnJobs;

    /// Makes the call on its own memory, and returns the number.
    fn make(&mut self, calls: &impl Calls) -> u32;

    /// On memory that is watched.
    fn lend(&mut self, random: &mut Random, calls: &impl Calls) -> Result<u32, String>;

    /// Where the memory after the call is not as wanted.
    fn compare(&self, wanted: &Self) -> Result<(), String>;

    /// The order and the length of the scratch, of a run whose state is right.
    fn scratch(&self) -> Option<(usize, usize)> {
        None
    }

    /// As the reference makes it.
    fn model(&mut self) -> u32 {
        self.make(&Model)
    }
}

impl Call for StartCall {
    const NAME: &'static str = "Start";
    const NUMBERS: &'static [u32] = &START_NUMBERS;

    fn jobs(&mut self) -> &mut OwnJobs {
        &mut self.jobs
    }

    fn make(&mut self, calls: &impl Calls) -> u32 {
        calls.start(self.order, self.jobs.lent(), &mut self.state)
    }

    fn lend(&mut self, random: &mut Random, calls: &impl Calls) -> Result<u32, String> {
        let jobs = self.jobs.lent();
        let parts = [jobs.algebras, jobs.sizes, jobs.weights, &self.state];
        let mut lent = Lent::new(random, parts);
        let [algebras, sizes, weights, state] = lent.parts();
        let number = calls.start(self.order, Jobs::of(algebras, sizes, weights), state);
        let [.., state] = lent.taken_back(3)?;
        self.state.copy_from_slice(state);
        Ok(number)
    }

    fn compare(&self, wanted: &StartCall) -> Result<(), String> {
        word_difference("state", &self.state, &wanted.state)
    }
}

impl RunCall {
    /// Of a state that test 10 accepts.
    pub fn header(&self) -> Header {
        Header::read(&self.state).expect("the state is right")
    }
}

impl Call for RunCall {
    const NAME: &'static str = "Run";
    const NUMBERS: &'static [u32] = &RUN_NUMBERS;

    fn jobs(&mut self) -> &mut OwnJobs {
        &mut self.jobs
    }

    fn make(&mut self, calls: &impl Calls) -> u32 {
        calls.run(&mut LentRun {
            state: &mut self.state,
            jobs: self.jobs.lent(),
            allowance: self.allowance,
            scratch: &mut self.scratch,
            results: &mut self.results,
            made: &mut self.made,
        })
    }

    fn lend(&mut self, random: &mut Random, calls: &impl Calls) -> Result<u32, String> {
        let OwnJobs {
            algebras,
            sizes,
            weights,
        } = &self.jobs;
        let (state, scratch, results) = (&self.state, &self.scratch, &self.results);
        let made = &[self.made];
        let parts: [&[u16]; 7] = [algebras, sizes, weights, state, scratch, results, made];
        let mut lent = Lent::new(random, parts);
        let [algebras, sizes, weights, state, scratch, results, made] = lent.parts();
        let number = calls.run(&mut LentRun {
            state,
            jobs: Jobs::of(algebras, sizes, weights),
            allowance: self.allowance,
            scratch,
            results,
            made: &mut made[0],
        });
        let [.., state, scratch, results, made] = lent.taken_back(3)?;
        self.state.copy_from_slice(state);
        self.scratch.copy_from_slice(scratch);
        self.results.copy_from_slice(results);
        self.made = made[0];
        Ok(number)
    }

    fn compare(&self, wanted: &RunCall) -> Result<(), String> {
        word_difference("ticks made", &[self.made], &[wanted.made])?;
        word_difference("state", &self.state, &wanted.state)?;
        word_difference("results", &self.results, &wanted.results)?;
        word_difference("scratch", &self.scratch, &wanted.scratch)
    }

    fn scratch(&self) -> Option<(usize, usize)> {
        Some((Header::read(&self.state)?.order, self.scratch.len()))
    }
}
