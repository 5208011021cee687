//! All that a call is lent, with what lies beside it, and whether it left what the reader leaves.

use crate::lending::{any_part, word_difference, Lent};
use crate::random::Random;
use crate::road::{reader, Answer};

#[derive(Clone)]
pub struct Memory {
    pub file: Lent<u8, 1>,
    pub table: Lent<u16, 1>,
    pub points: Lent<usize, 1>,
}

impl Memory {
    /// Whatever is not the file is random.
    pub fn new(random: &mut Random, file: &[u8], table_len: usize) -> Memory {
        let (table, points) = (any_part(random, table_len), any_part(random, 1));
        Memory {
            file: Lent::new(random, [file]),
            table: Lent::new(random, [&table]),
            points: Lent::new(random, [&points]),
        }
    }

    /// File, table and points, and nothing beside them.
    pub fn lent(&mut self) -> (&[u8], &mut [u16], &mut usize) {
        let ([file], [table]) = (self.file.parts(), self.table.parts());
        (file, table, &mut self.points.parts()[0][0])
    }

    /// The answer, where all is right after a call that returned `number`; else what is wrong.
    pub fn judge(&self, number: u32) -> Result<Answer, String> {
        let ([file], [table]) = (self.file.before(), self.table.before());
        let mut wanted_table = vec![0; table.len()];
        let wanted = reader::read(file, &mut wanted_table);
        let (wanted_number, wanted_points) = match wanted {
            Ok(points) => (0, points),
            Err(number) => (number, self.points.before()[0][0]),
        };
        self.file.stayed()?;
        let ([table], [points]) = (self.table.taken_back(0)?, self.points.taken_back(0)?);
        let points = points[0];
        if number != wanted_number {
            return Err(format!("returned {number}, wanted {wanted_number}"));
        }
        if points != wanted_points {
            return Err(format!("points are {points}, wanted {wanted_points}"));
        }
        let told = word_difference("table", table, &wanted_table);
        told.map_err(|what| format!("returned {number}, {what}"))?;
        Ok(wanted)
    }
}
