//! A kind that was expected and not met fails a comparison, however often the others were met.

use reference::tally::{Kind, Tally};

const KINDS: [Kind<u32>; 2] = [
    ("even", |number| number % 2 == 0),
    ("over 5", |number| *number > 5),
];

#[test]
fn a_kind_is_met_or_not() {
    let mut tally = Tally::default();
    tally.expect("numbers");
    tally.expect_each("numbers, ", &KINDS);
    assert!(!tally.all_met());
    for number in [2, 3, 4] {
        tally.count("numbers");
        tally.look("numbers, ", &KINDS, &number);
    }
    assert!(!tally.all_met());
    assert_eq!(tally.met("numbers, even"), 2);
    assert_eq!(tally.met("numbers, over 5"), 0);
    tally.look("numbers, ", &KINDS, &7);
    assert!(tally.all_met());
    assert_eq!(tally.sum("numbers, "), 3);
    assert_eq!(tally.sum("numbers"), 6);
}
