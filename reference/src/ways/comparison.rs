//! The way itself: the judge walks every list that the call gives, for many tables and pairs of points, and damaged calls
//! are refused with the right number and leave all as it was.

use crate::algebra::Algebra;
use crate::calls::Calls;
use crate::comparison::{told_of, Comparison};
use crate::damages::{damage_sets, damaged, first_number, has};
use crate::elimination::tables::{layout, Kind as Links, Layout};
use crate::lending::{any_part, Lent};
use crate::tally::Kind;
use crate::ways::counting::right_ways;
use crate::ways::damages::{right_call, DAMAGES};
use crate::ways::judge::judge;
use crate::ways::refusal::{refusal, NUMBERS};
use crate::ways::{search, Hall, Question};
use crate::MAX_SIZE;

/// Tables with the longest ways, for each algebra and each of the two kinds.
const LONG_TABLES: usize = 60;
/// For each algebra and kind, with all pairs of points.
const SMALL_TABLES: usize = 800;

pub const WAYS: &str = "entries with a way";
pub const NO_WAYS: &str = "entries of none, in right tables";

/// Ways by their number of points.
const LENGTHS: [Kind<usize>; 6] = [
    ("1 point", |&points| points == 1),
    ("2 points", |&points| points == 2),
    ("3 to 10 points", |points| (3..=10).contains(points)),
    ("11 to 100 points", |points| (11..=100).contains(points)),
    ("101 to 127 points", |points| (101..=127).contains(points)),
    ("128 points", |&points| points == 128),
];

/// An entry, and a right way for it.
struct Entry<'a> {
    hall: &'a Hall,
    from: usize,
    to: usize,
    way: &'a [u16],
    /// How many there are, where they are few enough to be counted.
    ways: usize,
}

fn entry_kinds<'a>() -> [Kind<Entry<'a>>; 4] {
    [
        ("whose direct link is another word", |entry| {
            let Entry { hall, from, to, .. } = *entry;
            from != to && hall.link(from, to) != hall.entry(from, to)
        }),
        ("with one way, to 5 points", |entry| entry.ways == 1),
        ("with several ways, to 5 points", |entry| entry.ways > 1),
        ("longer than its word says", |entry| {
            let link = |pair: &[u16]| u32::from(entry.hall.link(pair[0].into(), pair[1].into()));
            let length: u32 = entry.way.windows(2).map(link).sum();
            entry.hall.algebra == Algebra::Distance && length > 65534
        }),
    ]
}

impl<C: Calls> Comparison<C> {
    pub fn compare_ways(&mut self) -> Result<(), String> {
        self.tally.expect(NO_WAYS);
        self.tally.expect_each("ways of ", &LENGTHS);
        self.tally.expect_each("entries ", &entry_kinds());
        for algebra in Algebra::ALL {
            for kind in Links::ALL {
                self.tally.expect(tables_of(algebra, kind));
                for size in 1..=MAX_SIZE {
                    self.compare_pairs(algebra, size, kind, false)?;
                }
                for _ in 0..SMALL_TABLES {
                    let largest = self.random.pick(&[5, 5, 5, 5, 10, 10, 33]);
                    let size = self.random.between(1, largest);
                    self.compare_pairs(algebra, size, kind, true)?;
                }
            }
            for kind in [Links::Chain, Links::Ring] {
                for _ in 0..LONG_TABLES {
                    self.compare_pairs(algebra, MAX_SIZE, kind, false)?;
                }
            }
        }
        self.compare_way_damages()
    }

    /// Some pairs of points: the ends of what was laid out, neighbours in it, a point with itself, and any. Or all.
    fn compare_pairs(
        &mut self,
        algebra: Algebra,
        size: usize,
        kind: Links,
        all: bool,
    ) -> Result<(), String> {
        let random = &mut self.random;
        let Layout { links, order } = layout(random, algebra, size, kind);
        let mut points = || (random.below(size), random.below(size));
        let (any, other, (at, _)) = (points(), points(), points());
        let (first, last) = (order[0], order[size - 1]);
        let (point, next) = (order[at], order[(at + 1) % size]);
        let ends = [(first, last), (last, first), any, other];
        let near = [(point, next), (next, point), (point, point)];
        let pairs = match all {
            true => (0..size * size).map(|at| (at / size, at % size)).collect(),
            false => [&ends[..], &near].concat(),
        };
        let hall = Hall::new(algebra, size, links);
        self.tally.count(tables_of(algebra, kind));
        for (from, to) in pairs {
            self.compare_way(&hall, from, to)?;
        }
        Ok(())
    }

    fn compare_way(&mut self, hall: &Hall, from: usize, to: usize) -> Result<(), String> {
        let asked = hall.question(from, to);
        if !hall.has_way(from, to) {
            self.tally.count(NO_WAYS);
            return self.compare_refused_way(&asked, hall.size, 20);
        }
        let own = search::way(hall, from, to);
        let judged = judge(hall, from, to, &own);
        assert_eq!(judged, Ok(()), "the reference contradicts itself");
        let (number, lent, length) = self.lend_way(&asked, hall.size)?;
        let length = length.taken_back(0)?[0][0];
        let told = match number {
            0 if length <= hall.size => {
                let (way, rest) = lent.taken_back(2)?[2].split_at(length);
                let judged = judge(hall, from, to, way);
                match judged {
                    Ok(()) if rest == &lent.before()[2][length..] => Ok(()),
                    Ok(()) => Err(format!("words after {way:?} changed")),
                    Err(fault) => Err(format!("{fault:?} in {way:?}")),
                }
            }
            0 => Err(format!("the length is {length}")),
            _ => Err(format!("refused with {number}")),
        };
        told.map_err(|what| told_of(&what, &asked))?;
        self.tally.count(WAYS);
        self.tally.look("ways of ", &LENGTHS, &length);
        let ways = match hall.size <= 5 && from != to {
            true => right_ways(hall, from, to).len(),
            false => 0,
        };
        let entry = Entry {
            hall,
            from,
            to,
            way: &own,
            ways,
        };
        self.tally.look("entries ", &entry_kinds(), &entry);
        Ok(())
    }

    fn compare_way_damages(&mut self) -> Result<(), String> {
        for number in NUMBERS {
            self.tally.expect(refused_with(number));
        }
        for (name, number, _) in &DAMAGES {
            self.tally.expect(format!("{number} for {name} alone"));
        }
        for set in damage_sets(&mut self.random, &DAMAGES) {
            let right = right_call(&mut self.random, has(&set, 5), has(&set, 20));
            let call = damaged(&mut self.random, &right, &set);
            let wanted = refusal(&call.question(), call.list_len);
            let first = first_number(&NUMBERS, &set);
            assert_eq!(wanted, first, "the reference contradicts itself");
            self.compare_refused_way(&call.question(), call.list_len, wanted)?;
            self.tally.count(refused_with(wanted));
            if let [(name, number, _)] = set[..] {
                self.tally.count(format!("{number} for {name} alone"));
            }
        }
        Ok(())
    }

    /// The list and the length stay as they were.
    fn compare_refused_way(
        &mut self,
        asked: &Question,
        list_len: usize,
        wanted: u32,
    ) -> Result<(), String> {
        let (number, lent, length) = self.lend_way(asked, list_len)?;
        if number != wanted {
            let what = format!("returned {number}, wanted {wanted}");
            return Err(told_of(&what, asked));
        }
        let told = lent.stayed().and_then(|()| length.stayed());
        told.map_err(|what| told_of(&format!("refused with {number}, {what}"), asked))
    }

    /// Makes the call with links, closed table and a list of any words, and any length.
    fn lend_way(
        &mut self,
        asked: &Question,
        list_len: usize,
    ) -> Result<(u32, Lent<u16, 3>, Lent<usize, 1>), String> {
        let random = &mut self.random;
        let list = any_part(random, list_len);
        let mut lent = Lent::new(random, [asked.links, asked.closed, &list]);
        let length = any_part(random, 1);
        let mut lent_length = Lent::new(random, [&length]);
        let ([links, closed, list], [length]) = (lent.parts(), lent_length.parts());
        let question = Question {
            links,
            closed,
            ..*asked
        };
        let number = self.calls.way(&question, list, &mut length[0]);
        let beside = lent.taken_back(2).err().or(lent_length.taken_back(0).err());
        match beside {
            Some(what) => Err(told_of(&what, asked)),
            None => Ok((number, lent, lent_length)),
        }
    }
}

fn refused_with(number: u32) -> String {
    format!("damaged, refused with {number}")
}

fn tables_of(algebra: Algebra, kind: Links) -> String {
    format!("tables in {}, {kind:?}", algebra.name())
}
