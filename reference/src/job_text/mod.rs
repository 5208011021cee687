//! The reader of a job text, from "Job text and bench program" and the row "Text" of the table of tests in document
//! 01, with K8 of document 02: each job names its algebra. It is meant to be plain, and not to be fast.

pub mod line;

use crate::algebra::Algebra;
use crate::job_text::line::{algebra_named, form, is_numeral, number, unskipped, Form};

/// The largest number of bytes in a text.
pub const MAX_TEXT: usize = 65_536;
/// The largest order of an array.
pub const MAX_ORDER: u16 = 32;
/// The largest number of jobs in a list.
pub const MAX_JOBS: usize = 16;

/// What an accepted text says. A job's weights begin where the earlier jobs' end, row by row.
#[derive(Clone, Debug, PartialEq, Eq)]
pub struct JobList {
    pub order: u16,
    /// One a job, as the sizes are.
    pub algebras: Vec<Algebra>,
    pub sizes: Vec<u16>,
    pub weights: Vec<u16>,
}

/// One job of a list.
#[derive(Clone, Copy, Debug, PartialEq, Eq)]
pub struct Job<'a> {
    pub algebra: Algebra,
    pub size: usize,
    pub weights: &'a [u16],
}

impl<'a> Job<'a> {
    pub fn new(algebra: Algebra, size: usize, weights: &'a [u16]) -> Job<'a> {
        Job {
            algebra,
            size,
            weights,
        }
    }
}

impl JobList {
    /// Of no jobs.
    pub fn new(order: u16) -> JobList {
        JobList {
            order,
            algebras: Vec::new(),
            sizes: Vec::new(),
            weights: Vec::new(),
        }
    }

    pub fn push(&mut self, job: Job) {
        self.algebras.push(job.algebra);
        self.sizes.push(job.size as u16);
        self.weights.extend(job.weights);
    }

    pub fn jobs(&self) -> Vec<Job<'_>> {
        jobs(self.algebras.iter().copied(), &self.sizes, &self.weights)
    }

    pub fn has_reach(&self) -> bool {
        self.algebras.contains(&Algebra::Reach)
    }

    /// Of more than one algebra.
    pub fn is_mixed(&self) -> bool {
        self.algebras.windows(2).any(|pair| pair[0] != pair[1])
    }
}

/// The jobs of as many algebras and sizes, and of weights that fit them.
pub fn jobs<'a>(
    algebras: impl Iterator<Item = Algebra>,
    sizes: &[u16],
    mut weights: &'a [u16],
) -> Vec<Job<'a>> {
    let parts = algebras.zip(sizes).map(|(algebra, &size)| {
        let size = usize::from(size);
        let (part, later) = weights.split_at(size * size);
        weights = later;
        Job::new(algebra, size, part)
    });
    parts.collect()
}

#[derive(Clone, Copy, Debug, PartialEq, Eq)]
pub struct Refusal {
    pub number: u16,
    /// From 1, or 0 where no line is meant. It reaches 65,536.
    pub line: u32,
}

pub fn read(text: &[u8]) -> Result<JobList, Refusal> {
    if text.len() > MAX_TEXT {
        return Err(Refusal {
            number: 13,
            line: 0,
        });
    }
    let lines = lines(text);
    let mut reader = Reader::new();
    for (line, at) in lines.iter().zip(1..) {
        if let Some(line) = unskipped(line) {
            let taken = reader.take(line);
            taken.map_err(|number| Refusal { number, line: at })?;
        }
    }
    match reader.due {
        Due::Nothing => Ok(reader.list),
        _ => Err(Refusal {
            number: 17,
            line: lines.len() as u32,
        }),
    }
}

/// LF ends a line. What follows the last LF is a line only where it has a byte.
fn lines(text: &[u8]) -> Vec<&[u8]> {
    let mut lines: Vec<&[u8]> = text.split(|&byte| byte == b'\n').collect();
    if lines.last().is_some_and(|line| line.is_empty()) {
        lines.pop();
    }
    lines
}

/// What the next unskipped line has to be.
enum Due {
    List,
    JobOrListEnd,
    /// The number of rows that the open job still lacks, at least 1.
    Row(u16),
    JobEnd,
    Nothing,
}

struct Reader {
    due: Due,
    list: JobList,
}

/// Each of these makes the tests of one line in the order of the table, and returns the number of the first that
/// applies.
impl Reader {
    fn new() -> Reader {
        Reader {
            due: Due::List,
            // The order is set by the list's own line, before anything asks for it.
            list: JobList::new(0),
        }
    }

    fn take(&mut self, line: &[u8]) -> Result<(), u16> {
        match (&self.due, form(line)) {
            (Due::Nothing, _) => Err(17),
            (Due::List, Some(Form::List(parts))) => self.list_line(&parts),
            (Due::JobOrListEnd, Some(Form::Job(parts))) => self.job_line(&parts),
            (Due::JobOrListEnd, Some(Form::Close)) => self.list_end(),
            (&Due::Row(left), Some(Form::Row(parts))) => self.row_line(left, &parts),
            (Due::JobEnd, Some(Form::Close)) => {
                self.due = Due::JobOrListEnd;
                Ok(())
            }
            _ => Err(14),
        }
    }

    fn list_line(&mut self, parts: &[&[u8]]) -> Result<(), u16> {
        let &[order] = parts else {
            return Err(14);
        };
        if !is_numeral(order) {
            return Err(14);
        }
        let order = number(order).ok_or(15u16)?;
        if !(1..=MAX_ORDER).contains(&order) {
            return Err(6);
        }
        self.list.order = order;
        self.due = Due::JobOrListEnd;
        Ok(())
    }

    fn job_line(&mut self, parts: &[&[u8]]) -> Result<(), u16> {
        let &[size, name] = parts else {
            return Err(14);
        };
        let algebra = algebra_named(name).ok_or(14u16)?;
        if !is_numeral(size) {
            return Err(14);
        }
        let size = number(size).ok_or(15u16)?;
        if !(1..=self.list.order).contains(&size) {
            return Err(8);
        }
        if self.list.sizes.len() == MAX_JOBS {
            return Err(7);
        }
        self.list.algebras.push(algebra);
        self.list.sizes.push(size);
        self.due = Due::Row(size);
        Ok(())
    }

    fn row_line(&mut self, left: u16, parts: &[&[u8]]) -> Result<(), u16> {
        if !parts.iter().all(|part| is_numeral(part) || *part == b"-") {
            return Err(14);
        }
        // The open job is the last one.
        let open = self.list.algebras.last().zip(self.list.sizes.last());
        let (&algebra, &size) = open.expect("a row is due in a job alone");
        let words: Option<Vec<u16>> = parts.iter().map(|part| word(algebra, part)).collect();
        let words = words.ok_or(15u16)?;
        if words.len() != usize::from(size) {
            return Err(16);
        }
        if algebra == Algebra::Reach && words.iter().any(|&word| word > 1) {
            return Err(5);
        }
        self.list.weights.extend(words);
        self.due = match left {
            1 => Due::JobEnd,
            _ => Due::Row(left - 1),
        };
        Ok(())
    }

    fn list_end(&mut self) -> Result<(), u16> {
        if self.list.sizes.is_empty() {
            return Err(7);
        }
        self.due = Due::Nothing;
        Ok(())
    }
}

/// The word of a numeral or of `-`, or nothing where 15 applies.
fn word(algebra: Algebra, part: &[u8]) -> Option<u16> {
    match part {
        b"-" if algebra == Algebra::Reach => None,
        b"-" => Some(algebra.none()),
        _ => number(part),
    }
}
