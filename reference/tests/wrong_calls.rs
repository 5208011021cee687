//! The comparisons of the elimination and of arrays on right calls, and on such as are wrong in one thing: each has to be
//! found.

use reference::agreement::{twin, Closed, Pair};
use reference::algebra::Algebra::{self, Reach};
use reference::calls::{Calls, Model};
use reference::comparison::Comparison;
use reference::elimination::tables::{table, Kind};
use reference::elimination::{bytes_of, words_of};
use reference::job_text::Job;
use reference::random::Random;
use reference::systolic::moments::any_list_where;
use reference::systolic::state::Header;
use reference::systolic::{part_starts, Jobs, LentRun};
use wrong_closings::*;

mod wrong_closings;

/// A table closed, right or not.
type Close = fn(Job) -> Vec<u16>;

/// The model's calls with each word that is closed replaced by one of `close`, which leaves an array `late` ticks after its
/// own, and with changes besides.
#[derive(Clone, Copy)]
struct Stub {
    close: Close,
    /// The algebra, of those lent, that a job of an array is closed in.
    algebra: fn(&[u16], usize) -> u16,
    late: isize,
    /// What an accepted run does besides, and what a refused one and a refused start do to their memory.
    accepted_run: fn(&mut LentRun),
    refused_run: fn(&mut LentRun),
    refused_start: fn(&mut [u16]),
    /// What is returned for a number.
    returned: fn(u32) -> u32,
}

const RIGHT: Stub = Stub {
    close: closed,
    algebra: |algebras, q| algebras[q],
    late: 0,
    accepted_run: |_| (),
    refused_run: |_| (),
    refused_start: |_| (),
    returned: |number| number,
};

impl Stub {
    /// Writes the words of `close` whose ticks are made now in the place of the right ones.
    fn send_out(&self, header: Header, lent: &mut LentRun, before: &[u16]) {
        let (jobs, results) = (lent.jobs, &mut *lent.results);
        let (n, now) = (
            header.order,
            header.tick..header.tick + usize::from(*lent.made),
        );
        let starts = part_starts(jobs.sizes);
        for (q, (job, start)) in jobs.tested().into_iter().zip(starts).enumerate() {
            let algebra = Algebra::ALL[usize::from((self.algebra)(jobs.algebras, q))];
            let words = (self.close)(Job { algebra, ..job });
            let right = closed(job);
            for at in 0..words.len() {
                let tick = 4 * n * q + 4 * n - 1 + at / job.size + at % job.size;
                let leaves = now.contains(&tick.saturating_add_signed(self.late));
                // On other planes than those of a run from Start, the word is none of the two.
                let is_wrong = self.late != 0 || words[at] != right[at];
                if leaves && is_wrong {
                    results[start + at] = words[at];
                } else if !leaves && now.contains(&tick) {
                    results[start + at] = before[start + at];
                }
            }
        }
    }
}

impl Calls for Stub {
    fn eliminate(&self, algebra: u32, size: usize, weights: &[u8], result: &mut [u8]) -> u32 {
        let number = Model.eliminate(algebra, size, weights, result);
        if number == 0 {
            let (algebra, weights) = (Algebra::ALL[algebra as usize], words_of(weights));
            let words = (self.close)(Job::new(algebra, size, &weights));
            result.copy_from_slice(&bytes_of(&words));
        }
        (self.returned)(number)
    }

    fn start(&self, order: usize, jobs: Jobs, state: &mut [u16]) -> u32 {
        let number = Model.start(order, jobs, state);
        if number != 0 {
            (self.refused_start)(state);
        }
        (self.returned)(number)
    }

    fn run(&self, lent: &mut LentRun) -> u32 {
        let (header, before) = (Header::read(lent.state), lent.results.to_vec());
        let number = Model.run(lent);
        match (number, header) {
            (0, Some(header)) => {
                self.send_out(header, lent, &before);
                (self.accepted_run)(lent);
            }
            _ => (self.refused_run)(lent),
        }
        (self.returned)(number)
    }
}

/// The first difference of some tables.
fn found_in_tables(calls: impl Calls) -> Option<String> {
    let mut comparison = Comparison::new(calls, 41);
    let mut tables = (0..400).map(|_| comparison.compare_any_table());
    tables.find_map(Result::err)
}

/// The first difference of some lists.
fn found_in_lists(calls: impl Calls) -> Option<String> {
    let mut comparison = Comparison::new(calls, 42);
    let mut lists = (0..300).map(|_| {
        let list = any_list_where(&mut comparison.random, |list| list.order <= 8);
        comparison.compare_with_twins(&list)
    });
    lists.find_map(Result::err)
}

/// What K6's check says of some pairs alone, with nothing else to hold the tables against.
fn found_in_pairs(close: Close) -> Option<String> {
    let mut random = Random::new(43);
    let mut pairs = (0..400).map(|_| {
        let (size, kind) = (random.between(1, 8), random.pick(&Kind::ALL));
        let algebra = random.pick(&Algebra::ALL);
        let weights = &table(&mut random, algebra, size, kind);
        let one = Job::new(algebra, size, weights);
        let (algebra, weights) = &twin(&mut random, one);
        let other = Job::new(*algebra, size, weights);
        let words = [close(one), close(other)];
        let (one, other) = (
            Closed::whole(one, &words[0]),
            Closed::whole(other, &words[1]),
        );
        Pair::new(one, other).check()
    });
    pairs.find_map(Result::err)
}

#[test]
fn right_calls_agree() {
    assert_eq!(found_in_tables(Model), None);
    assert_eq!(found_in_tables(RIGHT), None);
    assert_eq!(found_in_lists(Model), None);
    assert_eq!(found_in_lists(RIGHT), None);
    assert_eq!(found_in_pairs(closed), None);
}

/// K6's check finds each by itself, and the comparisons in tables and in lists.
#[test]
fn wrong_words_are_found() {
    let wrong: [(&str, Close); 7] = [
        ("the product before K4", old_product),
        ("far read as none", |table| {
            changed(table, |_, word| if word == 65534 { 65535 } else { word })
        }),
        ("a reach word of 2", |table| {
            let times = if table.algebra == Reach { 2 } else { 1 };
            changed(table, |_, word| word.wrapping_mul(times))
        }),
        ("a wrong entry on the diagonal", |table| wrong_at(table, 24)),
        ("a wrong entry off it", |table| wrong_at(table, 1)),
        ("kept in reach", |table| kept_diagonal(table, true)),
        ("kept in others", |table| kept_diagonal(table, false)),
    ];
    for (what, close) in wrong {
        let stub = Stub { close, ..RIGHT };
        assert!(found_in_tables(stub).is_some(), "{what}");
        assert!(found_in_lists(stub).is_some(), "{what}");
        assert!(found_in_pairs(close).is_some(), "{what}");
    }
}

/// Both tables come back as they were, but for the diagonal: they agree with one another, and not with the reference.
#[test]
fn tables_that_are_not_closed_are_found() {
    let stub = Stub {
        close: own_diagonal,
        ..RIGHT
    };
    let told = found_in_tables(stub);
    assert!(told.is_some_and(|told| told.contains("of the closed table is")));
    assert!(found_in_lists(stub).is_some());
    assert_eq!(found_in_pairs(own_diagonal), None);
}

/// The first job's algebra for all, or that of the job before.
#[test]
fn the_algebra_of_another_job_is_found() {
    let wrong: [fn(&[u16], usize) -> u16; 2] = [
        |algebras, _| algebras[0],
        |algebras, q| algebras[q.saturating_sub(1)],
    ];
    for algebra in wrong {
        assert!(found_in_lists(Stub { algebra, ..RIGHT }).is_some());
    }
}

/// A tick early or late.
#[test]
fn another_tick_is_found() {
    for late in [-1, 1] {
        assert!(found_in_lists(Stub { late, ..RIGHT }).is_some());
    }
}

/// The ticks made, or the state's tick, one too many or too few.
#[test]
fn wrong_ticks_are_found() {
    let changes: [fn(&mut LentRun); 4] = [
        |lent| *lent.made += 1,
        |lent| *lent.made = lent.made.saturating_sub(1),
        |lent| lent.state[3] += 1,
        |lent| lent.state[3] = lent.state[3].saturating_sub(1),
    ];
    for accepted_run in changes {
        let stub = Stub {
            accepted_run,
            ..RIGHT
        };
        assert!(found_in_lists(stub).is_some());
    }
}

/// A right call refused, a wrong one accepted, and another refusal.
#[test]
fn wrong_numbers_are_found() {
    let wrong: [fn(u32) -> u32; 3] = [
        |number| number.max(1),
        |_| 0,
        |number| if number == 12 { 4 } else { number },
    ];
    let faults = [
        "returned 1, wanted 0",
        "returned 0, wanted ",
        "returned 4, wanted 12",
    ];
    for (returned, fault) in wrong.into_iter().zip(faults) {
        let told = found_in_lists(Stub { returned, ..RIGHT });
        assert!(told.is_some_and(|told| told.contains(fault)));
    }
    let returned = wrong[0];
    let told = found_in_tables(Stub { returned, ..RIGHT });
    assert!(told.is_some_and(|told| told.contains("refused with 1")));
}

/// To any part of the memory that is lent.
#[test]
fn refused_calls_that_write_are_found() {
    fn flip(words: &mut [u16]) {
        words.iter_mut().for_each(|word| *word ^= 1);
    }
    let changes: [fn(&mut LentRun); 4] = [
        |lent| flip(lent.results),
        |lent| flip(lent.state),
        |lent| flip(lent.scratch),
        |lent| *lent.made ^= 1,
    ];
    let runs = changes.map(|refused_run| Stub {
        refused_run,
        ..RIGHT
    });
    let start = Stub {
        refused_start: flip,
        ..RIGHT
    };
    for stub in runs.into_iter().chain([start]) {
        assert!(found_in_lists(stub).is_some());
    }
}
