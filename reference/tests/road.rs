//! The readers of road files on files whose tables and numbers are known by hand.

use reference::road::border::border_files;
use reference::road::{one_walk, reader, Read, WORDS};

/// None.
const N: u16 = 65535;

/// The plain reader and the quick one.
const READERS: [Read; 2] = [reader::read, one_walk::read];

/// Both read these points and words, on a buffer of other words, and zero the rest.
fn assert_table(file: &str, points: usize, words: &[u16]) {
    for read in READERS {
        let mut table = vec![7; WORDS];
        assert_eq!(read(file.as_bytes(), &mut table), Ok(points), "{file:?}");
        assert_eq!(table[..words.len()], *words, "{file:?}");
        assert_eq!(words.len(), points * points);
        assert!(table[words.len()..].iter().all(|&word| word == 0));
    }
}

/// Both refuse with this number, and zero a buffer of any length.
fn assert_refused(file: &[u8], len: usize, number: u32) {
    for read in READERS {
        let mut table = vec![7; len];
        let file_shown = file.escape_ascii();
        assert_eq!(read(file, &mut table), Err(number), "\"{file_shown}\"");
        assert!(table.iter().all(|&word| word == 0), "\"{file_shown}\"");
    }
}

#[test]
fn borders() {
    for (file, number) in border_files() {
        match number {
            0 => READERS.iter().for_each(|read| {
                let answer = read(file, &mut [7; WORDS]);
                assert!(answer.is_ok(), "{}", file.escape_ascii());
            }),
            number => assert_refused(file, WORDS, number),
        }
    }
}

/// A file as the challenge has it.
#[test]
fn a_hall_is_read() {
    let file = "c 9th DIMACS Implementation Challenge: Shortest Paths\n\
                c\n\
                p sp 3 4\n\
                c graph contains 3 nodes and 4 arcs\n\
                c\n\
                a 1 2 803\n\
                a 2 1 804\n\
                a 3 1 158\n\
                a 2 3 0\n";
    assert_table(file, 3, &[0, 803, N, 804, 0, 0, 158, N, 0]);
}

#[test]
fn comments_are_passed() {
    let file = b"c\xff\0\r\t\ncat\nc p sp 3 3\np sp 1 1\nca 9 9 9\na 1 1 1\nc";
    for read in READERS {
        assert_eq!(read(file, &mut [7; WORDS]), Ok(1));
    }
    // Of every length, so that an LF is at every place of a stride.
    for len in 0..100 {
        let file = format!("c{0}\np sp 1 1\nc{0}\na 1 1 1\nc{0}", "x".repeat(len));
        assert_table(&file, 1, &[0]);
        assert_refused(format!("{file}\n\n").as_bytes(), WORDS, 21);
    }
}

/// 21 before all others, and all of it zeroed.
#[test]
fn a_wrong_buffer_is_refused() {
    for len in [0, 1, 4, 128, WORDS - 1, WORDS + 1, 2 * WORDS] {
        for file in ["p sp 2 1\na 1 2 3\n", "p sp 129 0", "p sp 2 1", "x", ""] {
            assert_refused(file.as_bytes(), len, 21);
        }
    }
}
