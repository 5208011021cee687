//! The makers of road files: what is made is what was meant, and both readers read it alike.

use reference::random::Random;
use reference::road::big::{all_pairs, long_comments, many_arcs, mostly_comments, padded};
use reference::road::draft::{any_arcs, any_points, Draft};
use reference::road::style::Arc;
use reference::road::{one_walk, reader, Answer, WORDS};

/// What both readers make of a file.
fn read(file: &[u8]) -> (Answer, Vec<u16>) {
    let (mut plain, mut quick) = (vec![5; WORDS], vec![6; WORDS]);
    let answer = reader::read(file, &mut plain);
    assert_eq!(one_walk::read(file, &mut quick), answer);
    assert!(plain == quick, "\"{}\"", file.escape_ascii());
    (answer, plain)
}

/// Entry by entry, from the arcs themselves.
fn table_of(points: u64, arcs: &[Arc]) -> Vec<u16> {
    let mut table = Vec::new();
    for from in 1..=points {
        for to in 1..=points {
            let fit = arcs.iter().filter(|arc| arc[..2] == [from, to]);
            let shortest = fit.map(|arc| arc[2].min(65534) as u16).min();
            table.push(if from == to {
                0
            } else {
                shortest.unwrap_or(65535)
            });
        }
    }
    table
}

#[test]
fn drafts_are_read_as_they_were_meant() {
    let mut random = Random::new(50);
    for _ in 0..2_000 {
        let points = any_points(&mut random);
        let arcs = any_arcs(&mut random, points);
        let draft = Draft::of(&mut random, points, &arcs);
        assert_eq!(draft.arc_places().len(), arcs.len());
        let (answer, table) = read(&draft.text());
        let mut wanted = table_of(points, &arcs);
        wanted.resize(WORDS, 0);
        assert_eq!(answer, Ok(points as usize));
        assert!(table == wanted, "\"{}\"", draft.text().escape_ascii());
    }
}

#[test]
fn big_files_are_accepted() {
    let mut random = Random::new(52);
    for file in [
        many_arcs(&mut random, 100_000),
        all_pairs(&mut random),
        mostly_comments(&mut random, 300_000),
    ] {
        assert_eq!(read(&file).0, Ok(128));
    }
    let pairs = all_pairs(&mut random);
    assert!(pairs.starts_with(b"p sp 128 16256\n"));
    assert!(!read(&pairs).1.contains(&65535));
    let comments = long_comments(&mut random, 3);
    assert!(comments.len() > 4_000_000);
    let (answer, table) = read(&comments);
    assert_eq!((answer, &table[..3]), (Ok(3), [0, 65535, 65534].as_slice()));
}

#[test]
fn a_file_is_padded() {
    let right = b"p sp 1 0\n".to_vec();
    for len in [11, 12, 50] {
        for has_last_lf in [true, false] {
            let file = padded(right.clone(), len, has_last_lf);
            assert_eq!(file.len(), len);
            assert_eq!(file.ends_with(b"\n"), has_last_lf);
            assert_eq!(read(&file).0, Ok(1));
        }
    }
}
