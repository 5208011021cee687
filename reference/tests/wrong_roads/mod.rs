//! A third reader of road files that can be made wrong in one thing.

pub mod faults;
mod lines;
mod reading;

use faults::Fault;
use reading::read_lines;
use reference::calls::Calls;
use reference::road::WORDS;

/// Right where it has no fault.
pub struct Reader(pub Option<Fault>);

impl Calls for Reader {
    fn read(&self, file: &[u8], words: &mut [u16], points: &mut usize) -> u32 {
        let (read, table) = read_lines(file, self.0);
        let answer = self.with_buffer(read, words.len());
        match answer {
            Ok(number) => {
                self.leave_table(words, &table, number);
                if !self.is(Fault::PointsUnwritten) {
                    *points = number;
                }
            }
            Err(_) => {
                self.leave_refused(words, &table);
                if self.is(Fault::PointsAtRefusal) {
                    *points = 0;
                }
            }
        }
        answer.err().unwrap_or(0)
    }
}

impl Reader {
    fn is(&self, fault: Fault) -> bool {
        self.0 == Some(fault)
    }

    fn with_buffer(&self, read: Result<usize, u32>, len: usize) -> Result<usize, u32> {
        match read {
            read if len == WORDS => read,
            read if len > WORDS && self.is(Fault::LargerBufferTaken) => read,
            Err(number) if self.is(Fault::WrongBufferLast) => Err(number),
            _ => Err(21),
        }
    }

    fn leave_table(&self, words: &mut [u16], table: &[u16], points: usize) {
        if self.is(Fault::RestIsJunk) {
            words[..points * points].copy_from_slice(&table[..points * points]);
        } else {
            words.fill(0);
            words[..WORDS].copy_from_slice(table);
        }
    }

    fn leave_refused(&self, words: &mut [u16], table: &[u16]) {
        let len = words.len();
        match self.0 {
            Some(Fault::TableAtRefusal) if len == WORDS => words.copy_from_slice(table),
            Some(Fault::JunkAtRefusal) if len == WORDS => {}
            Some(Fault::JunkAtWrongBuffer) if len != WORDS => {}
            Some(Fault::WrongBufferBeyond) => words[..len.min(WORDS)].fill(0),
            _ => words.fill(0),
        }
    }
}
