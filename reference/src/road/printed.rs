//! What the program prints for a file: its closed table, or the number of its refusal.

use crate::algebra::Algebra;
use crate::bench::program_call::first_difference;
use crate::elimination::eliminate;
use crate::road::{reader, LONGEST, NONE, WORDS};

/// For a file that is not too long.
pub fn printed(file: &[u8]) -> Vec<u8> {
    let mut table = vec![0; WORDS];
    match reader::read(file, &mut table) {
        Ok(points) => {
            let words = &table[..points * points];
            let closed = eliminate(Algebra::Distance, points, words);
            closed.chunks(points).flat_map(row).collect()
        }
        Err(number) => format!("(refused {number})\n").into_bytes(),
    }
}

fn row(words: &[u16]) -> Vec<u8> {
    let word = |&word: &u16| match word {
        NONE => "-".to_string(),
        word => word.to_string(),
    };
    let words: Vec<String> = words.iter().map(word).collect();
    (words.join(" ") + "\n").into_bytes()
}

/// What is wrong with the program's standard output and standard error for a file. The latter has to say something
/// where the file is too long, and is not looked at elsewhere.
pub fn judge_printed(file: &[u8], output: &[u8], error: &[u8]) -> Result<(), String> {
    if file.len() > LONGEST {
        return match (output, error) {
            ([], [_, ..]) => Ok(()),
            ([], []) => Err("nothing told of a file too long".to_string()),
            _ => Err("a file too long was printed".to_string()),
        };
    }
    match first_difference(output, &printed(file)) {
        Some(what) => Err(what),
        None => Ok(()),
    }
}
