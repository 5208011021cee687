//! The reference's reader, array and sheet, held against what documents 01 and 02 say apart from them: the listing, the
//! bench cards, the borders of the tests, and the elimination.

use reference::bench::sheet::{accepted, sheet};
use reference::elimination::tables::Kind;
use reference::job_text::{read, JobList};
use reference::random::Random;
use reference::systolic::checks::check;
use reference::systolic::run;
use reference::texts::border::{border_texts, LISTING};
use reference::texts::lists::{drawn_list, largest_list, small_list, Sizes};
use reference::texts::writing::{text, Freedom};

fn printed(text: &str) -> String {
    String::from_utf8(sheet(text.as_bytes())).unwrap()
}

/// B9.
#[test]
fn listing() {
    let wanted =
        "(jobs 1 ticks 10)\n(out 0 0 0 2 7 0)\n(out 0 0 1 2 8 5)\n(out 0 1 0 2 8 -)\n(out 0 1 1 2 9 0)\n";
    assert_eq!(printed(LISTING), wanted);
}

/// B8, and none and 0 in reach.
#[test]
fn one_point() {
    let wanted = "(jobs 1 ticks 4)\n(out 0 0 0 1 3 1)\n";
    assert_eq!(printed("(list 1\n(job 1 reach\n(row 0)\n)\n)"), wanted);
    let wanted =
        "(jobs 1 ticks 10)\n(out 0 0 0 2 7 1)\n(out 0 0 1 2 8 0)\n(out 0 1 0 2 8 1)\n(out 0 1 1 2 9 1)\n";
    let text = "(list 2\n(job 2 reach\n(row 0 0)\n(row 1 0)\n)\n)";
    assert_eq!(printed(text), wanted);
}

/// B10, with the links of B3 and, as job 1, two points of a hall.
#[test]
fn jobs_of_two_sizes() {
    let first = "(job 3 distance\n(row 0 4 9)\n(row - 0 3)\n(row 1 - 0)\n)\n";
    let second = "(job 2 distance\n(row 9 4)\n(row - 9)\n)\n";
    let text = format!("(list 3\n{first}{second})\n");
    let wanted = "(jobs 2 ticks 28)\n\
        (out 0 0 0 3 11 0)\n(out 0 0 1 3 12 4)\n(out 0 1 0 3 12 4)\n(out 0 0 2 3 13 7)\n(out 0 1 1 3 13 0)\n\
        (out 0 2 0 3 13 1)\n(out 0 1 2 3 14 3)\n(out 0 2 1 3 14 5)\n(out 0 2 2 3 15 0)\n\
        (out 1 0 0 2 23 0)\n(out 1 0 1 2 24 4)\n(out 1 1 0 2 24 -)\n(out 1 1 1 2 25 0)\n";
    assert_eq!(printed(&text), wanted);
}

/// K8: the two points of the listing in reach, steepest and distance, with no way back: none is 0 in reach alone.
#[test]
fn jobs_of_three_algebras() {
    let reach = "(job 2 reach\n(row 0 1)\n(row 0 0)\n)\n";
    let steepest = "(job 2 steepest\n(row 9 5)\n(row - 9)\n)\n";
    let distance = "(job 2 distance\n(row 9 0)\n(row - 9)\n)\n";
    let text = format!("(list 2\n{reach}{steepest}{distance})\n");
    let wanted = "(jobs 3 ticks 26)\n\
        (out 0 0 0 2 7 1)\n(out 0 0 1 2 8 1)\n(out 0 1 0 2 8 0)\n(out 0 1 1 2 9 1)\n\
        (out 1 0 0 2 15 0)\n(out 1 0 1 2 16 5)\n(out 1 1 0 2 16 -)\n(out 1 1 1 2 17 0)\n\
        (out 2 0 0 2 23 0)\n(out 2 0 1 2 24 0)\n(out 2 1 0 2 24 -)\n(out 2 1 1 2 25 0)\n";
    assert_eq!(printed(&text), wanted);
}

/// None printed by the first job's algebra, or by that of the job before.
#[test]
fn a_wrong_none_is_found() {
    let mut random = Random::new(8);
    let wrong: [fn(&mut JobList); 2] = [
        |list| {
            let first = list.algebras[0];
            list.algebras.fill(first);
        },
        |list| list.algebras.rotate_right(1),
    ];
    for fault in wrong {
        let mut lists = (0..100).map(|_| small_list(&mut random));
        let is_found = lists.any(|list| {
            let outcome = run(&list);
            let mut shown = list.clone();
            fault(&mut shown);
            accepted(&shown, &outcome) != accepted(&list, &outcome)
        });
        assert!(is_found);
    }
}

#[test]
fn borders() {
    for (text, wanted) in border_texts() {
        let refusal = read(&text).err();
        let shown = &text[..text.len().min(200)];
        assert_eq!(refusal, wanted, "{}", shown.escape_ascii());
    }
    assert_eq!(printed("("), "(refused 14 1)\n");
    assert_eq!(printed(""), "(refused 17 0)\n");
}

/// A list comes back from any text that is written of it.
#[test]
fn written_lists_are_read() {
    let mut random = Random::new(3);
    for at in 0..2_000 {
        let (list, freedom) = match at % 40 {
            0 => (largest_list(&mut random), Freedom(20)),
            _ => (small_list(&mut random), Freedom::any(&mut random)),
        };
        let text = text(&mut random, freedom, &list);
        assert_eq!(read(&text), Ok(list), "{}", text.escape_ascii());
    }
}

/// Every order, with the ticks and words that the formulas and the elimination give.
#[test]
fn the_array_eliminates() {
    let mut random = Random::new(5);
    for order in 1..=32 {
        for sizes in Sizes::ALL {
            let jobs = random.pick(&[1, 2, 3, 16]);
            let list = drawn_list(&mut random, order, jobs, sizes, &Kind::ALL);
            assert_eq!(check(&list, &run(&list)), Ok(()), "{list:?}");
        }
    }
}
