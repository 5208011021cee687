//! The reference's judge, search and tests for ways, held against what K2 of document 02 says apart from them: cards, all
//! lists of small tables, and the order of the tests.

use reference::algebra::Algebra::{self, Distance, Reach, Steepest};
use reference::elimination::tables::{layout, table, Kind, Layout};
use reference::random::Random;
use reference::ways::counting::right_ways;
use reference::ways::judge::{judge, Fault};
use reference::ways::refusal::refusal;
use reference::ways::rust_search::RustSearch;
use reference::ways::search;
use reference::ways::Hall;
use reference::MAX_SIZE;

const NONE: u16 = 65535;

/// Card B3 of document 01, its diagonal no words that count.
fn b3() -> Hall {
    Hall::new(Distance, 3, vec![9, 4, 9, NONE, 9, 3, 1, NONE, 9])
}

/// From 0 to 3 through 1 or through 2, and straight at more.
fn two_ways(algebra: Algebra) -> Hall {
    let mut links = vec![NONE; 16];
    for (from, to, word) in [(0, 1, 2), (1, 3, 3), (0, 2, 3), (2, 3, 2), (0, 3, 6)] {
        links[4 * from + to] = word;
    }
    Hall::new(algebra, 4, links)
}

#[test]
fn right_lists_are_accepted() {
    let hall = b3();
    for (from, to, list) in [
        (0, 1, &[0, 1][..]),
        (0, 2, &[0, 1, 2]),
        (1, 0, &[1, 2, 0]),
        (2, 1, &[2, 0, 1]),
        (1, 1, &[1]),
    ] {
        assert_eq!(judge(&hall, from, to, list), Ok(()));
        assert_eq!(right_ways(&hall, from, to), [list]);
    }
    for algebra in [Distance, Steepest] {
        let hall = two_ways(algebra);
        assert_eq!(judge(&hall, 0, 3, &[0, 1, 3]), Ok(()));
        assert_eq!(judge(&hall, 0, 3, &[0, 2, 3]), Ok(()));
        assert_eq!(right_ways(&hall, 0, 3), [[0, 1, 3], [0, 2, 3]]);
    }
}

#[test]
fn wrong_lists_are_not() {
    let hall = b3();
    for (list, fault) in [
        (&[][..], Fault::Empty),
        (&[0, 3, 2], Fault::Outside),
        (&[0, 1, 65535], Fault::Outside),
        (&[1, 2], Fault::Begin),
        (&[2, 1, 0], Fault::Begin),
        (&[0, 1], Fault::End),
        (&[0], Fault::End),
        (&[0, 0, 1, 2], Fault::Repeat),
        (&[0, 1, 2, 0, 1, 2], Fault::Repeat),
        (&[0, 2], Fault::Word(9)),
    ] {
        assert_eq!(judge(&hall, 0, 2, list), Err(fault), "{list:?}");
    }
    // A ring that costs nothing is a repeat nevertheless, and so is a step from a point to itself.
    let hall = Hall::new(Distance, 2, vec![0; 4]);
    assert_eq!(judge(&hall, 0, 0, &[0, 1, 0]), Err(Fault::Repeat));
    assert_eq!(judge(&hall, 0, 0, &[0, 0]), Err(Fault::Repeat));
    assert_eq!(judge(&hall, 0, 0, &[0]), Ok(()));
    // B7: the way is there, and its word is held at 65534; back there is none.
    let links = vec![0, 40000, NONE, NONE, 0, 25535, NONE, NONE, 0];
    let hall = Hall::new(Distance, 3, links);
    assert_eq!(judge(&hall, 0, 2, &[0, 1, 2]), Ok(()));
    assert_eq!(refusal(&hall.question(0, 2), 3), 0);
    assert!(!hall.has_way(2, 0));
    assert_eq!(refusal(&hall.question(2, 0), 3), 20);
}

/// The judge accepts a list if and only if it is one of those found by trying all ways.
#[test]
fn every_short_list_is_judged() {
    let mut random = Random::new(8);
    for round in 0..600 {
        let (algebra, kind) = (random.pick(&Algebra::ALL), random.pick(&Kind::ALL));
        let size = 1 + round % 3;
        let links = table(&mut random, algebra, size, kind);
        let hall = Hall::new(algebra, size, links);
        let (from, to) = (random.below(size), random.below(size));
        let right = right_ways(&hall, from, to);
        let mut accepted = 0;
        for list in short_lists(size) {
            let is_right = judge(&hall, from, to, &list).is_ok();
            assert_eq!(is_right, right.contains(&list), "{list:?}");
            accepted += usize::from(is_right);
        }
        assert_eq!(accepted, right.len());
    }
}

/// All lists of up to one word more than points, of points and one number that is none.
fn short_lists(size: usize) -> Vec<Vec<u16>> {
    let mut lists = vec![vec![]];
    let mut longest = lists.clone();
    for _ in 0..=size {
        let extended = longest.iter().flat_map(|list: &Vec<u16>| {
            let words = 0..=size as u16;
            words.map(move |word| [&list[..], &[word]].concat())
        });
        longest = extended.collect();
        lists.extend(longest.clone());
    }
    lists
}

/// The benchmark's search finds one of the ways that trying all finds.
#[test]
fn searches_find_right_ways() {
    let mut random = Random::new(9);
    let mut rust_search = RustSearch::new(6);
    for round in 0..3_000 {
        let (algebra, kind) = (random.pick(&Algebra::ALL), random.pick(&Kind::ALL));
        let size = 1 + round % 6;
        let links = table(&mut random, algebra, size, kind);
        let hall = Hall::new(algebra, size, links);
        let (from, to) = (random.below(size), random.below(size));
        let mut list = vec![7; size];
        match rust_search.way(&hall.question(from, to), &mut list) {
            Ok(length) => assert!(right_ways(&hall, from, to).contains(&list[..length].to_vec())),
            Err(number) => assert!(number == 20 && !hall.has_way(from, to)),
        }
    }
}

/// Both searches, in the largest tables, where not all ways can be tried.
#[test]
fn searches_find_long_ways() {
    let (mut random, mut longest) = (Random::new(10), 0);
    let (mut rust_search, mut list) = (RustSearch::new(MAX_SIZE), vec![0; MAX_SIZE]);
    for algebra in Algebra::ALL {
        for kind in Kind::ALL {
            let Layout { links, order } = layout(&mut random, algebra, MAX_SIZE, kind);
            let hall = Hall::new(algebra, MAX_SIZE, links);
            let (from, to) = (order[0], order[MAX_SIZE - 1]);
            if hall.has_way(from, to) {
                let way = search::way(&hall, from, to);
                assert_eq!(judge(&hall, from, to, &way), Ok(()), "{kind:?}");
                let length = rust_search.way(&hall.question(from, to), &mut list);
                let found = &list[..length.expect("there is a way")];
                assert_eq!(judge(&hall, from, to, found), Ok(()), "{kind:?}");
                longest = longest.max(way.len());
            }
        }
    }
    assert_eq!(longest, MAX_SIZE);
}

/// Borders of the tests, one step on either side.
#[test]
fn border_calls() {
    let hall = b3();
    let asked = hall.question(0, 2);
    assert_eq!(refusal(&asked, 3), 0);
    assert_eq!([2, 4].map(|len| refusal(&asked, len)), [19, 19]);
    assert_eq!(refusal(&hall.question(3, 2), 3), 19);
    assert_eq!(refusal(&hall.question(0, 3), 3), 19);
    let mut closed = hall.closed().to_vec();
    closed[4] = 1;
    let mut asked = hall.question(0, 2);
    asked.closed = &closed;
    assert_eq!(refusal(&asked, 3), 19);
    assert_eq!(RustSearch::new(3).way(&asked, &mut [0; 3]), Err(19));
    asked.closed = &closed[..8];
    assert_eq!(refusal(&asked, 3), 4);
    // 5 is for the links alone: in reach a closed word above 1 is one that isn't the elimination's.
    let hall = Hall::new(Reach, 2, vec![0, 1, 0, 0]);
    let mut asked = hall.question(1, 0);
    assert_eq!(refusal(&asked, 2), 20);
    asked.closed = &[1, 1, 2, 1];
    assert_eq!(refusal(&asked, 2), 19);
    asked.links = &[2, 1, 0, 0];
    assert_eq!(refusal(&asked, 2), 5);
    asked.algebra = 3;
    assert_eq!(refusal(&asked, 2), 1);
}
