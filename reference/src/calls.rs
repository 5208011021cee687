//! The calls that a comparison is given: the proved ones, the reference's own, or wrong ones in a test.

use crate::algebra::Algebra;
use crate::elimination::{self, bytes_of, words_of};
use crate::ranges::{self, Bounds};
use crate::road::reader;
use crate::systolic::{self, Jobs, LentRun};
use crate::ways::{self, Question};

/// Each returns 0, or the number of the refusal. What is not said otherwise is as the reference makes it.
pub trait Calls {
    /// Tables of two bytes a word, low byte first.
    fn eliminate(&self, algebra: u32, size: usize, weights: &[u8], result: &mut [u8]) -> u32 {
        let number = elimination::refusal::refusal(algebra, size, weights, result.len());
        if number == 0 {
            let algebra = Algebra::ALL[algebra as usize];
            let closed = elimination::eliminate(algebra, size, &words_of(weights));
            result.copy_from_slice(&bytes_of(&closed));
        }
        number
    }

    /// Writes the points of a way to the list, and their number to `length`.
    fn way(&self, asked: &Question, list: &mut [u16], length: &mut usize) -> u32 {
        let number = ways::refusal::refusal(asked, list.len());
        if number == 0 {
            let way = ways::search::way(&asked.hall(), asked.from, asked.to);
            list[..way.len()].copy_from_slice(&way);
            *length = way.len();
        }
        number
    }

    /// Closes the table of best words and that of worst words, each into its own result.
    fn close_range(&self, asked: &Bounds, results: [&mut [u16]; 2]) -> u32 {
        let lens = results.each_ref().map(|result| result.len());
        let number = ranges::refusal::refusal(asked, lens);
        if number == 0 {
            for (closed, result) in asked.closed().iter().zip(results) {
                result.copy_from_slice(closed);
            }
        }
        number
    }

    fn start(&self, order: usize, jobs: Jobs, state: &mut [u16]) -> u32 {
        systolic::calls::start(order, jobs, state)
    }

    fn run(&self, lent: &mut LentRun) -> u32 {
        systolic::calls::run(lent)
    }

    /// Reads a road file into the table, and writes the number of its points to `points`.
    fn read(&self, file: &[u8], table: &mut [u16], points: &mut usize) -> u32 {
        match reader::read(file, table) {
            Ok(number) => {
                *points = number;
                0
            }
            Err(number) => number,
        }
    }
}

/// The reference's own, which need no archive.
pub struct Model;

impl Calls for Model {}
