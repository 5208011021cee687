//! The comparison of road files on right readers, and on such as are wrong in one thing: each has to be found.

mod wrong_roads;

use reference::calls::{Calls, Model};
use reference::comparison::Comparison;
use reference::random::Random;
use reference::road::border::neighbours;
use reference::road::kinds::{Kind, KINDS};
use reference::road::memory::Memory;
use reference::road::{one_walk, WORDS};
use wrong_roads::faults::Fault;
use wrong_roads::Reader;

/// The first difference of some files: a part of each kind, and then a file's neighbours.
fn found(calls: impl Calls) -> Option<String> {
    let mut comparison = Comparison::new(calls, 43);
    for kind in &KINDS {
        for _ in 0..kind.1 / 10 {
            if let Err(what) = comparison.compare_kind(kind) {
                return Some(what);
            }
        }
    }
    let mut compared = neighbours()
        .into_iter()
        .map(|file| comparison.compare_file(&file, None));
    compared.find_map(Result::err)
}

struct Quick;

impl Calls for Quick {
    fn read(&self, file: &[u8], table: &mut [u16], points: &mut usize) -> u32 {
        match one_walk::read(file, table) {
            Ok(number) => {
                *points = number;
                0
            }
            Err(number) => number,
        }
    }
}

#[test]
fn right_readers_agree() {
    assert_eq!(found(Model), None);
    assert_eq!(found(Quick), None);
    assert_eq!(found(Reader(None)), None);
}

#[test]
fn every_fault_is_found() {
    let faults = Fault::ALL.iter();
    let missed: Vec<_> = faults
        .filter(|&&fault| found(Reader(Some(fault))).is_none())
        .collect();
    assert!(missed.is_empty(), "{missed:?}");
}

/// The difference is told in words that fit it.
#[test]
fn a_fault_is_told() {
    for (fault, told) in [
        (Fault::LastStands, "of the table is"),
        (Fault::RangeBeforeForm, "returned 22, wanted 21"),
        (Fault::CountUntested, "returned 0, wanted 23"),
        (Fault::RestIsJunk, "returned 0, word"),
        (Fault::JunkAtRefusal, "returned 21, word"),
        (Fault::TableAtRefusal, "word 1 of the table is"),
        (Fault::WrongBufferBeyond, ": returned 21, word 16384"),
        (Fault::PointsAtRefusal, "points are 0"),
    ] {
        let what = found(Reader(Some(fault))).expect("a difference");
        assert!(what.contains(told), "{fault:?}: {what}");
        assert!(what.contains("file"), "{what}");
    }
}

/// Every word and byte of what is lent and beside it is watched.
#[test]
fn every_place_is_watched() {
    let mut memory = Memory::new(&mut Random::new(44), b"p sp 2 1\na 1 2 7\n", WORDS);
    let (file, table, points) = memory.lent();
    let number = Model.read(file, table, points);
    assert_eq!(memory.judge(number), Ok(Ok(2)));
    let assert_watched = |len: usize, touch: fn(&mut Memory, usize)| {
        for at in 0..len {
            let mut touched = memory.clone();
            touch(&mut touched, at);
            assert!(touched.judge(number).is_err(), "{at}");
        }
    };
    let (file, table) = (&memory.file.words, &memory.table.words);
    assert_watched(file.len(), |memory, at| memory.file.words[at] ^= 1);
    assert_watched(table.len(), |memory, at| memory.table.words[at] ^= 1);
    let points = memory.points.words.len();
    assert_watched(points, |memory, at| memory.points.words[at] ^= 1);
}

/// A file that is read otherwise than it was made for is told too.
#[test]
fn a_wrong_maker_is_found() {
    let mut comparison = Comparison::new(Model, 45);
    let kind: Kind = ("wrong", 1, Some(22), |_, _| {});
    let what = comparison.compare_kind(&kind).expect_err("a difference");
    assert!(what.contains("made for Some(22), read as 0"), "{what}");
    assert_eq!(comparison.tally.sum("answers"), 0);
}
