//! The kinds of lists and calls that a comparison of Start and Run has to meet.

use crate::algebra::Algebra;
use crate::job_text::JobList;
use crate::systolic::memory::{OwnJobs, RunCall};
use crate::systolic::state::Header;
use crate::tally::Kind;
use crate::texts::lists::{has_hall_in_two_algebras, is_largest, neighbours_differ, sizes_differ};

pub const LISTS: [Kind<JobList>; 14] = [
    ("lists of order 1", |list| list.order == 1),
    ("lists of order 2 to 8", |list| {
        (2..=8).contains(&list.order)
    }),
    ("lists of order 9 to 30", |list| {
        (9..=30).contains(&list.order)
    }),
    ("lists of order 31", |list| list.order == 31),
    ("lists of order 32", |list| list.order == 32),
    ("lists of order 32 with 16 jobs", is_largest),
    ("lists in reach alone", |list| is_plain(list, 0)),
    ("lists in distance alone", |list| is_plain(list, 1)),
    ("lists in steepest alone", |list| is_plain(list, 2)),
    ("mixed lists", JobList::is_mixed),
    ("mixed lists with no reach", |list| {
        list.is_mixed() && !list.has_reach()
    }),
    ("neighbours of other size in one algebra", sizes_differ),
    ("neighbours of other size and algebra", neighbours_differ),
    ("one hall in two algebras", has_hall_in_two_algebras),
];

fn is_plain(list: &JobList, number: u32) -> bool {
    let mut algebras = list.algebras.iter();
    algebras.all(|algebra| algebra.number() == number)
}

/// Of accepted runs, by what they were lent.
pub const RUNS: [Kind<RunKind>; 9] = [
    ("runs of allowance 0", |run| run.allowance == 0),
    ("runs after the end", |run| {
        run.left() == 0 && run.allowance > 0
    }),
    ("runs of one tick", |run| {
        run.left() > 0 && run.allowance == 1
    }),
    ("runs cut short at the end", RunKind::is_cut),
    ("runs cut short, allowance 65535", |run| {
        run.is_cut() && run.allowance == 65535
    }),
    ("runs on changed memory", |run| {
        run.makes_ticks() && run.changed
    }),
    ("runs with reach on words above 1", |run| {
        run.makes_ticks() && run.foreign_planes
    }),
    ("runs from a seam of two algebras", |run| {
        run.makes_ticks() && run.at_seam
    }),
    ("runs from such a seam, of one tick", |run| {
        run.at_seam && run.allowance == 1
    }),
];

/// What may be wrong with the algebras lent to a call, or with a word for its job's algebra.
pub const WRONG_ALGEBRAS: [Kind<OwnJobs>; 6] = [
    ("no algebras", |jobs| jobs.algebras.is_empty()),
    ("an algebra missing", |jobs| {
        jobs.algebras.len() + 1 == jobs.sizes.len()
    }),
    ("an algebra too many", |jobs| {
        jobs.algebras.len() == jobs.sizes.len() + 1
    }),
    ("the first algebra alone unknown", |jobs| {
        unknown(jobs) == [0] && jobs.algebras.len() > 1
    }),
    ("the last algebra alone unknown", |jobs| {
        unknown(jobs) == [jobs.algebras.len().wrapping_sub(1)] && jobs.algebras.len() > 1
    }),
    ("a wrong word, and reach not first", |jobs| {
        let are_right = unknown(jobs).is_empty() && jobs.algebras.len() == jobs.sizes.len();
        are_right && jobs.algebras.first() != Some(&0)
    }),
];

/// The places of unknown algebras.
fn unknown(jobs: &OwnJobs) -> Vec<usize> {
    let is_unknown = |&at: &usize| Algebra::numbered(jobs.algebras[at]).is_none();
    (0..jobs.algebras.len()).filter(is_unknown).collect()
}

/// Wrong lengths of the scratch, with the order before them.
pub const SCRATCH_LENS: [Kind<(usize, usize)>; 5] = [
    ("no scratch", |&(_, len)| len == 0),
    ("a scratch of 2N - 1", |&(n, len)| len == 2 * n - 1),
    ("a scratch of 2N + 1", |&(n, len)| len == 2 * n + 1),
    ("a scratch of 2N²", |&(n, len)| len == 2 * n * n),
    ("a scratch of another order", |&(_, len)| {
        len % 2 == 0 && (2..=64).contains(&len)
    }),
];

/// What is counted of a run before it is made.
pub struct RunKind {
    header: Header,
    allowance: u16,
    /// Not as Start and runs alone left it.
    changed: bool,
    /// With a job in reach, and the planes have a word above 1.
    foreign_planes: bool,
    /// The first cell is on a job already, and the last still on the one before, which has another algebra.
    at_seam: bool,
}

impl RunKind {
    /// Nothing where test 10 applies.
    pub fn of(call: &RunCall, changed: bool) -> Option<RunKind> {
        let header = Header::read(&call.state)?;
        let (n, algebras) = (header.order, &call.jobs.algebras);
        // The last cell is 2N - 2 ticks behind.
        let job = |behind: usize| header.tick.checked_sub(behind).map(|s| s / (4 * n));
        let algebra = |behind: usize| job(behind).and_then(|q| algebras.get(q));
        let two = algebra(0).zip(algebra(2 * n - 2));
        Some(RunKind {
            header,
            allowance: call.allowance,
            changed,
            foreign_planes: algebras.contains(&0) && call.state[4..].iter().any(|&word| word > 1),
            at_seam: two.is_some_and(|(first, last)| first != last),
        })
    }

    fn left(&self) -> usize {
        self.header.ticks_left()
    }

    fn makes_ticks(&self) -> bool {
        self.left() > 0 && self.allowance > 0
    }

    fn is_cut(&self) -> bool {
        self.left() > 0 && usize::from(self.allowance) > self.left()
    }
}
