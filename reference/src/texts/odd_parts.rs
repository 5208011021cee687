//! Parts and lines to damage a text with.

use crate::random::Random;
use crate::texts::writing::Line;

/// At the borders of some test.
pub const NUMERALS: [&str; 22] = [
    "0", "1", "2", "00", "00000", "00001", "01", "15", "16", "17", "31", "32", "33", "00032",
    "00033", "255", "256", "257", "65534", "65535", "09999", "10000",
];

/// Over five digits, or above 65535. Some are right numbers where 16, 32 or 64 bits wrap.
pub const LONG_NUMERALS: [&str; 16] = [
    "65536",
    "65537",
    "65538",
    "65568",
    "99999",
    "70000",
    "000000",
    "000001",
    "000002",
    "0000000001",
    "100000",
    "131073",
    "4294967297",
    "18446744073709551617",
    "000000000000000000000000000001",
    "123456789012345678901234567890",
];

/// Not in reach.
pub const ABOVE_ONE: [&str; 10] = [
    "2", "3", "9", "00002", "10", "255", "256", "257", "65534", "65535",
];

pub const NO_ORDERS: [&str; 12] = [
    "0", "00", "00000", "33", "0033", "34", "64", "256", "257", "288", "65534", "65535",
];

/// Too large for any array, or 0.
pub const NO_SIZES: [&str; 10] = [
    "0", "000", "00000", "33", "00033", "128", "256", "257", "32768", "65535",
];

/// Neither numerals nor `-`.
pub const ODD_PARTS: [&str; 36] = [
    "x", "--", "-1", "1-", "+1", "-0", "1.0", "0x1", "1e3", "1,", "_", ";", ";1", "1;", "(", ")",
    "(1", "1)", "()", "(1)", "\t", "1\t", "\t1", "1\t2", "\r", "1\r", "\0", "1\0", "\u{a0}",
    "\u{661}", "\u{ff11}", "row", "reach", "distance", "/", ":",
];

/// In the place of `(` and a name.
pub const NAMES: [&str; 24] = [
    "(list", "(job", "(row", "(", "( list", "( job", "( row", "((list", "((row", "list", "row",
    "(List", "(JOB", "(rows", "(ro", "(lis", "(job1", "(row1", ")", "(out", "(jobs", "(refused",
    "", "[row",
];

/// In the place of nothing or of a row's `)`.
pub const ENDS: [&str; 16] = [
    "", ")", " )", "))", ") )", ")(", "(", ";", ") ;", ");", ") x", ")x", "\r", ")\r", ")\t", ")\0",
];

/// In the place of an algebra's name; those of the algebras too, and their numbers.
pub const ALGEBRAS: [&str; 16] = [
    "reach", "distance", "steepest", "Reach", "reac", "reach1", "reaches", "steep", "-", "0", "1",
    "2", "65536", "list", "reach)", "reach\r",
];

/// A form, right in itself, that may not be due.
pub fn any_line(random: &mut Random) -> Line {
    match random.below(7) {
        0 => Line::new(&["(list", "2"], ""),
        1 => Line::new(&["(job", "1", "reach"], ""),
        2 => Line::new(&["(job", "2", "distance"], ""),
        3 => Line::new(&["(row", "1"], ")"),
        4 => Line::new(&["(row", "0", "1"], ")"),
        5 => Line::new(&["(row"], ")"),
        _ => Line::close(),
    }
}

/// A numeral or `-`.
pub fn any_number(random: &mut Random) -> &'static str {
    let parts = random.pick(&[&["-"][..], &["2"], &NUMERALS, &NUMERALS, &LONG_NUMERALS]);
    random.pick(parts)
}

/// These, and parts that are neither.
pub fn any_part(random: &mut Random) -> &'static str {
    match random.below(4) {
        0 => random.pick(&ODD_PARTS),
        1 => random.pick(&ALGEBRAS),
        _ => any_number(random),
    }
}
