//! The reader as quickly as safe Rust makes it: one walk over the bytes, no line looked at twice. For the benchmark.

use crate::road::{Answer, COUNT, FAR, FORM, NONE, RANGE, WORDS};
use crate::MAX_SIZE;

/// The same answers and tables as the plain reader.
pub fn read(file: &[u8], table: &mut [u16]) -> Answer {
    let answer = match table.len() {
        WORDS => walk(file, table),
        _ => Err(FORM),
    };
    match answer {
        Ok(points) => table[points * points..].fill(0),
        Err(_) => table.fill(0),
    }
    answer
}

fn walk(file: &[u8], table: &mut [u16]) -> Answer {
    let mut cursor = Cursor { file, at: 0 };
    let (points, arcs) = begin(&mut cursor)?;
    let table = &mut table[..points * points];
    table.fill(NONE);
    for entry in table.iter_mut().step_by(points + 1) {
        *entry = 0;
    }
    let mut arcs_read = 0;
    while cursor.at < file.len() {
        match file[cursor.at] {
            b'a' => {
                arc(&mut cursor, points, table)?;
                arcs_read += 1;
            }
            b'c' => cursor.pass_line(),
            _ => return Err(FORM),
        }
    }
    match arcs_read == arcs {
        true => Ok(points),
        false => Err(COUNT),
    }
}

/// The comments before the `p` line, and that line: points and arcs.
fn begin(cursor: &mut Cursor) -> Result<(usize, u64), u32> {
    while cursor.byte() == b'c' {
        cursor.pass_line();
    }
    cursor.expect(b'p')?;
    cursor.spaces()?;
    cursor.expect(b's')?;
    cursor.expect(b'p')?;
    let points = cursor.numeral()?;
    let arcs = cursor.numeral()?;
    cursor.expect(b'\n')?;
    match (1..=MAX_SIZE as u64).contains(&points) {
        true => Ok((points as usize, arcs)),
        false => Err(RANGE),
    }
}

#[inline]
fn arc(cursor: &mut Cursor, points: usize, table: &mut [u16]) -> Result<(), u32> {
    cursor.at += 1;
    let from = cursor.numeral()?.wrapping_sub(1);
    let to = cursor.numeral()?.wrapping_sub(1);
    let length = cursor.numeral()?.min(FAR.into()) as u16;
    cursor.expect(b'\n')?;
    // Point 0 has become the largest number.
    if from.max(to) >= points as u64 {
        return Err(RANGE);
    }
    // The diagonal is 0, which no arc makes shorter.
    let entry = &mut table[from as usize * points + to as usize];
    *entry = (*entry).min(length);
    Ok(())
}

struct Cursor<'a> {
    file: &'a [u8],
    at: usize,
}

impl Cursor<'_> {
    /// At the end as if another LF were there, since the last line may lack it.
    #[inline]
    fn byte(&self) -> u8 {
        self.file.get(self.at).copied().unwrap_or(b'\n')
    }

    #[inline]
    fn expect(&mut self, byte: u8) -> Result<(), u32> {
        match self.byte() == byte {
            true => {
                self.at += 1;
                Ok(())
            }
            false => Err(FORM),
        }
    }

    /// One or more.
    #[inline]
    fn spaces(&mut self) -> Result<(), u32> {
        self.expect(b' ')?;
        while self.byte() == b' ' {
            self.at += 1;
        }
        Ok(())
    }

    /// With the spaces before it.
    #[inline]
    fn numeral(&mut self) -> Result<u64, u32> {
        self.spaces()?;
        let start = self.at;
        let mut value: u64 = 0;
        loop {
            let digit = self.byte().wrapping_sub(b'0');
            if digit > 9 {
                break;
            }
            // What wraps has too many digits.
            value = value.wrapping_mul(10).wrapping_add(digit.into());
            self.at += 1;
        }
        match self.at - start {
            1..=10 => Ok(value),
            _ => Err(FORM),
        }
    }

    fn pass_line(&mut self) {
        let rest = &self.file[self.at..];
        let (eights, tail) = rest.as_chunks::<8>();
        let of_eights = eights
            .iter()
            .map(|&bytes| first_lf(u64::from_le_bytes(bytes)));
        let found = of_eights
            .enumerate()
            .find_map(|(at, lf)| Some(8 * at + lf?));
        let in_tail =
            || Some(rest.len() - tail.len() + tail.iter().position(|&byte| byte == b'\n')?);
        let passed = found.or_else(in_tail).map_or(rest.len(), |lf| lf + 1);
        self.at += passed;
    }
}

/// The place of the first LF among eight bytes, the first of which is the lowest.
fn first_lf(bytes: u64) -> Option<usize> {
    const ONES: u64 = u64::from_ne_bytes([1; 8]);
    // A byte of 0 is where the LF was. Borrowing reaches only bytes above the first such.
    let others = bytes ^ (ONES * b'\n' as u64);
    let found = others.wrapping_sub(ONES) & !others & (ONES << 7);
    (found != 0).then(|| found.trailing_zeros() as usize / 8)
}
