//! What the program over the reader has to print, and what is said of one that prints something else.

use reference::bench::program_call::told;
use reference::calls::Model;
use reference::comparison::Comparison;
use reference::road::printed::{judge_printed, printed};
use reference::road::LONGEST;
use std::path::Path;

fn shown(file: &str) -> String {
    String::from_utf8(printed(file.as_bytes())).expect("text")
}

/// 1 reaches 3 through 2, and nothing reaches 1. 4 and 3 are far from one another, and 40000 twice is far too.
#[test]
fn the_closed_table_is_printed() {
    assert_eq!(shown("p sp 1 0"), "0\n");
    assert_eq!(
        shown("p sp 3 3\na 1 2 5\na 2 3 6\na 1 3 12\n"),
        "0 5 11\n- 0 6\n- - 0\n"
    );
    assert_eq!(
        shown("p sp 3 2\na 1 2 40000\na 2 3 40000\n"),
        "0 40000 65534\n- 0 40000\n- - 0\n"
    );
    assert_eq!(shown("p sp 2 1\na 1 1 5\n"), "0 -\n- 0\n");
}

#[test]
fn a_refusal_is_printed() {
    assert_eq!(shown(""), "(refused 21)\n");
    assert_eq!(shown("p sp 0 0"), "(refused 22)\n");
    assert_eq!(shown("p sp 1 1"), "(refused 23)\n");
}

#[test]
fn wrong_prints_are_found() {
    let file = b"p sp 2 1\na 1 2 5\n";
    assert_eq!(judge_printed(file, b"0 5\n- 0\n", b""), Ok(()));
    for wrong in [
        "",
        "0 5\n- 0",
        "0 5\n- 0\n\n",
        "0 5 \n- 0\n",
        "0 5\n65535 0\n",
        "0 5\r\n- 0\r\n",
        "0 6\n- 0\n",
        "0 -\n5 0\n",
        "0\t5\n-\t0\n",
        "(refused 21)\n",
    ] {
        assert!(judge_printed(file, wrong.as_bytes(), b"").is_err());
    }
    assert!(judge_printed(b"", b"(refused 22)\n", b"").is_err());
    assert!(judge_printed(b"", b"", b"refused").is_err());
}

/// One byte more than the longest is told on standard error alone.
#[test]
fn a_file_too_long_is_told() {
    let mut file = b"p sp 1 0\nc".to_vec();
    file.resize(LONGEST, b'x');
    assert_eq!(LONGEST, 1_048_576);
    assert_eq!(judge_printed(&file, b"0\n", b""), Ok(()));
    assert!(judge_printed(&file, b"", b"too long").is_err());
    file.push(b'x');
    assert_eq!(judge_printed(&file, b"", b"too long"), Ok(()));
    assert!(judge_printed(&file, b"", b"").is_err());
    assert!(judge_printed(&file, b"0\n", b"").is_err());
    assert!(judge_printed(&file, b"0\n", b"too long").is_err());
}

/// A program is given the file that was named, and a failing one is told.
#[test]
fn a_program_is_compared() {
    let mut comparison = Comparison::new(Model, 53);
    let file = b"p sp 1 0";
    let right = |given: &[u8], _: usize| Ok([printed(given), Vec::new()]);
    assert_eq!(comparison.compare_printed(file, Ok(1), 1, &right), Ok(()));
    let wrong = |_: &[u8], _: usize| Ok([b"1\n".to_vec(), Vec::new()]);
    assert!(comparison.compare_printed(file, Ok(1), 1, &wrong).is_err());
    let failing = |_: &[u8], _: usize| Err("no such program".to_string());
    let what = comparison.compare_printed(file, Ok(1), 1, &failing);
    assert!(what.is_err_and(|what| what.contains("no such program")));
}

/// What a process writes to each of the two is kept apart, whether it reads all it is given or not.
#[test]
fn a_process_is_heard() {
    let sh = Path::new("sh");
    for pieces in 1..4 {
        let heard = told(sh, b"echo out\necho error >&2\n", pieces).expect("a shell");
        assert_eq!(heard, [b"out\n".to_vec(), b"error\n".to_vec()]);
    }
    let long = [b"echo out; exit 1\n".as_slice(), &[b'#'; 1_000_000]].concat();
    let heard = told(sh, &long, 1).expect("a shell");
    assert_eq!(heard, [b"out\n".to_vec(), Vec::new()]);
    assert!(told(sh, b"kill -9 $$\n", 1).is_err());
    assert!(told(Path::new("no-such-program"), b"", 1).is_err());
}
