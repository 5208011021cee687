//! A program as a process: a text in at standard input, bytes out at standard output and standard error.

use std::io::{self, Read, Write};
use std::path::Path;
use std::process::{ChildStdin, Command, Stdio};
use std::thread;
use std::time::Duration;

/// Between two pieces of a text, so that the program may meet the first one alone.
const PAUSE: Duration = Duration::from_micros(300);

/// What the program prints for a text that comes in `pieces` pieces. Its exit status is not looked at, as document 01
/// says nothing of one, but an end by a signal is an error.
pub fn printed(program: &Path, text: &[u8], pieces: usize) -> io::Result<Vec<u8>> {
    let [output, _] = told(program, text, pieces)?;
    Ok(output)
}

/// The same, with what it tells on standard error.
pub fn told(program: &Path, text: &[u8], pieces: usize) -> io::Result<[Vec<u8>; 2]> {
    let mut child = Command::new(program)
        .stdin(Stdio::piped())
        .stdout(Stdio::piped())
        .stderr(Stdio::piped())
        .spawn()?;
    let stdin = child.stdin.take().expect("standard input is piped");
    let mut stdout = child.stdout.take().expect("standard output is piped");
    let mut stderr = child.stderr.take().expect("standard error is piped");
    let (mut output, mut error) = (Vec::new(), Vec::new());
    // The text is written beside the reading, so that neither side can wait for the other for ever.
    thread::scope(|scope| {
        scope.spawn(|| write(stdin, text, pieces));
        let reading = scope.spawn(|| stderr.read_to_end(&mut error));
        stdout.read_to_end(&mut output)?;
        reading.join().expect("reading does not panic")
    })?;
    match child.wait()?.code() {
        Some(_) => Ok([output, error]),
        None => Err(io::Error::other("the program was ended by a signal")),
    }
}

/// An error here only says that the program reads no further, which it may do: what it prints is compared.
fn write(mut stdin: ChildStdin, text: &[u8], pieces: usize) {
    let len = text.len().div_ceil(pieces).max(1);
    for (at, piece) in text.chunks(len).enumerate() {
        if at > 0 {
            thread::sleep(PAUSE);
        }
        if stdin.write_all(piece).is_err() {
            return;
        }
    }
}

/// The first line in which two prints differ, from 1.
pub fn first_difference(got: &[u8], wanted: &[u8]) -> Option<String> {
    let lines = |bytes: &[u8]| -> Vec<String> {
        let lines = bytes.split_inclusive(|&byte| byte == b'\n');
        let shown = lines.map(|line| line.escape_ascii().to_string());
        shown.chain(["nothing".to_string()]).collect()
    };
    let (got, wanted) = (lines(got), lines(wanted));
    let mut both = got.iter().zip(&wanted).zip(1..);
    let ((got, wanted), at) = both.find(|((got, wanted), _)| got != wanted)?;
    Some(format!("line {at}: printed {got}, wanted {wanted}"))
}
