//! The reader, line by line and part by part, as the paper tells it.

use crate::road::{Answer, COUNT, FAR, FORM, NONE, RANGE, WORDS};
use crate::MAX_SIZE;

/// Leaves the table and then zeroes, or after a refusal zeroes alone.
pub fn read(file: &[u8], table: &mut [u16]) -> Answer {
    table.fill(0);
    if table.len() != WORDS {
        return Err(FORM);
    }
    let answer = read_lines(file, table);
    if answer.is_err() {
        table.fill(0);
    }
    answer
}

fn read_lines(file: &[u8], table: &mut [u16]) -> Answer {
    let mut reading = Reading::default();
    for line in lines(file) {
        reading.take(line, table)?;
    }
    reading.end()
}

/// Each line without its LF. After the last LF there is no further line.
fn lines(file: &[u8]) -> impl Iterator<Item = &[u8]> {
    let lines = file.split_inclusive(|&byte| byte == b'\n');
    lines.map(|line| line.strip_suffix(b"\n").unwrap_or(line))
}

/// What the lines have said up to now.
#[derive(Default)]
struct Reading {
    problem: Option<Problem>,
    /// Those from a point to itself count too.
    arcs_read: u64,
}

#[derive(Clone, Copy)]
struct Problem {
    points: usize,
    arcs: u64,
}

impl Reading {
    /// The table is written from the `p` line on.
    fn take(&mut self, line: &[u8], table: &mut [u16]) -> Result<(), u32> {
        match Line::parse(line).ok_or(FORM)? {
            Line::Comment => Ok(()),
            Line::Problem { points, arcs } => self.begin(points, arcs, table),
            Line::Arc { from, to, length } => self.arc(from, to, length, table),
        }
    }

    fn begin(&mut self, points: u64, arcs: u64, table: &mut [u16]) -> Result<(), u32> {
        if self.problem.is_some() {
            return Err(FORM);
        }
        if !(1..=MAX_SIZE as u64).contains(&points) {
            return Err(RANGE);
        }
        let points = points as usize;
        table[..points * points].fill(NONE);
        for point in 0..points {
            table[point * points + point] = 0;
        }
        self.problem = Some(Problem { points, arcs });
        Ok(())
    }

    fn arc(&mut self, from: u64, to: u64, length: u64, table: &mut [u16]) -> Result<(), u32> {
        let Problem { points, .. } = self.problem.ok_or(FORM)?;
        let in_range = 1..=points as u64;
        if !in_range.contains(&from) || !in_range.contains(&to) {
            return Err(RANGE);
        }
        self.arcs_read += 1;
        if from != to {
            let entry = &mut table[(from as usize - 1) * points + to as usize - 1];
            *entry = (*entry).min(length.min(FAR.into()) as u16);
        }
        Ok(())
    }

    fn end(&self) -> Answer {
        let Problem { points, arcs } = self.problem.ok_or(FORM)?;
        match self.arcs_read == arcs {
            true => Ok(points),
            false => Err(COUNT),
        }
    }
}

enum Line {
    Comment,
    Problem { points: u64, arcs: u64 },
    Arc { from: u64, to: u64, length: u64 },
}

impl Line {
    /// Nothing where the line has no known form.
    fn parse(line: &[u8]) -> Option<Line> {
        if line.starts_with(b"c") {
            return Some(Line::Comment);
        }
        if line.ends_with(b" ") {
            return None;
        }
        // A space before the first part leaves that empty, so that it is neither of the two.
        let mut parts = line.split(|&byte| byte == b' ');
        let letter = parts.next()?;
        let mut parts = parts.filter(|part| !part.is_empty());
        let read = match letter {
            b"p" if parts.next()? == b"sp" => Line::Problem {
                points: numeral(parts.next()?)?,
                arcs: numeral(parts.next()?)?,
            },
            b"a" => Line::Arc {
                from: numeral(parts.next()?)?,
                to: numeral(parts.next()?)?,
                length: numeral(parts.next()?)?,
            },
            _ => return None,
        };
        match parts.next() {
            None => Some(read),
            Some(_) => None,
        }
    }
}

/// Ten digits need 34 bits.
fn numeral(part: &[u8]) -> Option<u64> {
    if !(1..=10).contains(&part.len()) {
        return None;
    }
    part.iter().try_fold(0, |value, byte| match byte {
        b'0'..=b'9' => Some(10 * value + u64::from(byte - b'0')),
        _ => None,
    })
}
