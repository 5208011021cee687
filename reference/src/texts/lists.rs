//! Random lists of jobs, with algebras, sizes and tables that meet different ends of the array.

use crate::agreement::have_same_links;
use crate::algebra::Algebra;
use crate::elimination::lengths::{self, lengths};
use crate::elimination::tables::{table, Kind};
use crate::job_text::{Job, JobList, MAX_JOBS, MAX_ORDER};
use crate::random::Random;

#[derive(Clone, Copy, Debug)]
pub enum Sizes {
    Any,
    Full,
    /// No job has the size of the one before it.
    NeighboursDiffer,
    /// Every job is the first points of one hall, and no job is the one before it: it has another size, or the same
    /// links in another algebra.
    SameHall,
}

impl Sizes {
    pub const ALL: [Sizes; 4] = [
        Sizes::Any,
        Sizes::Full,
        Sizes::NeighboursDiffer,
        Sizes::SameHall,
    ];
}

/// Kinds whose words are short enough that a text can hold the largest list.
const SHORT: [Kind; 4] = [Kind::Sparse, Kind::SmallWords, Kind::AllNone, Kind::AllZero];

/// One for each job. Of the lists with several jobs two in three are mixed, and the third has one algebra.
pub fn any_algebras(random: &mut Random, jobs: usize) -> Vec<Algebra> {
    let is_mixed = jobs > 1 && !random.one_in(3);
    let mut algebras = vec![random.pick(&Algebra::ALL); jobs];
    while is_mixed && algebras.windows(2).all(|pair| pair[0] == pair[1]) {
        algebras.fill_with(|| random.pick(&Algebra::ALL));
    }
    algebras
}

/// Mostly few jobs, as a long list differs little from two short ones, and mostly of different sizes.
pub fn small_list(random: &mut Random) -> JobList {
    let order = random.pick(&[1, 2, 3, 3, 4, 4, 5, 6, 7, 8]);
    let most = random.pick(&[1, 2, 3, 4, 4, 6, MAX_JOBS]);
    let jobs = random.between(1, most);
    let sizes = random.pick(&[
        Sizes::Any,
        Sizes::Full,
        Sizes::NeighboursDiffer,
        Sizes::NeighboursDiffer,
        Sizes::SameHall,
        Sizes::SameHall,
    ]);
    drawn_list(random, order, jobs, sizes, &Kind::ALL)
}

/// Every order and every number of jobs.
pub fn medium_list(random: &mut Random) -> JobList {
    let order = random.between(1, MAX_ORDER.into());
    let jobs = random.between(1, MAX_JOBS);
    let sizes = random.pick(&Sizes::ALL);
    let kinds = match order * order * jobs {
        0..=8_000 => &Kind::ALL[..],
        _ => &SHORT[..],
    };
    drawn_list(random, order, jobs, sizes, kinds)
}

/// The largest order and the largest number of jobs.
pub fn largest_list(random: &mut Random) -> JobList {
    let sizes = random.pick(&Sizes::ALL);
    drawn_list(random, MAX_ORDER.into(), MAX_JOBS, sizes, &SHORT)
}

/// The largest list with words of five digits everywhere but on the diagonal, so that its sheet is as long as a sheet gets: every way
/// goes through one point of the job, as a text has no room for more links. (Not in reach, which has no such words.)
pub fn longest_list(random: &mut Random) -> JobList {
    let points = usize::from(MAX_ORDER);
    let mut list = JobList::new(MAX_ORDER);
    for _ in 0..MAX_JOBS {
        let algebra = random.pick(&[Algebra::Distance, Algebra::Steepest]);
        let hub = random.between(0, points - 1);
        let mut weights = vec![algebra.none(); points * points];
        for other in (0..points).filter(|&other| other != hub) {
            weights[hub * points + other] = random.between(10_000, 32_767) as u16;
            weights[other * points + hub] = random.between(10_000, 32_767) as u16;
        }
        list.push(Job::new(algebra, points, &weights));
    }
    list
}

/// In algebras that are drawn.
pub fn drawn_list(
    random: &mut Random,
    order: usize,
    jobs: usize,
    sizes: Sizes,
    kinds: &[Kind],
) -> JobList {
    let algebras = any_algebras(random, jobs);
    list(random, &algebras, order, sizes, kinds)
}

/// A job for each of the algebras.
pub fn list(
    random: &mut Random,
    algebras: &[Algebra],
    order: usize,
    sizes: Sizes,
    kinds: &[Kind],
) -> JobList {
    let mut list = JobList::new(order as u16);
    let hall = Hall::any(random, algebras, order, kinds);
    for &algebra in algebras {
        let size = next_size(random, sizes, algebra, &list);
        let kind = random.pick(kinds);
        let weights = match sizes {
            Sizes::SameHall => hall.job(algebra, size),
            _ => table(random, algebra, size, kind),
        };
        list.push(Job::new(algebra, size, &weights));
    }
    list
}

/// The size of the job that follows those in the list. In an array of order 1 no two sizes differ.
fn next_size(random: &mut Random, sizes: Sizes, algebra: Algebra, list: &JobList) -> usize {
    let order = usize::from(list.order);
    let before = list.sizes.last().map_or(0, |&size| size.into());
    let other_algebra = list.algebras.last().is_some_and(|&other| other != algebra);
    match sizes {
        Sizes::Any => random.between(1, order),
        Sizes::Full => order,
        Sizes::SameHall if other_algebra && random.one_in(2) => before,
        Sizes::NeighboursDiffer | Sizes::SameHall => {
            let others: Vec<usize> = (1..=order).filter(|&size| size != before).collect();
            match others.is_empty() {
                true => 1,
                false => random.pick(&others),
            }
        }
    }
}

/// A table whose links any of the jobs may have.
struct Hall {
    algebra: Algebra,
    points: usize,
    links: Vec<u16>,
}

impl Hall {
    /// In reach only where all jobs are: its words are too few for the others.
    fn any(random: &mut Random, algebras: &[Algebra], points: usize, kinds: &[Kind]) -> Hall {
        let mut others = algebras.iter().filter(|&&other| other != Algebra::Reach);
        let algebra = others.next().copied().unwrap_or(Algebra::Reach);
        let kind = random.pick(kinds);
        Hall {
            algebra,
            points,
            links: table(random, algebra, points, kind),
        }
    }

    /// The links of the first points. Reach has 1 where the hall has not none.
    fn job(&self, algebra: Algebra, size: usize) -> Vec<u16> {
        let words = first_points(&self.links, self.points, size).into_iter();
        words
            .map(|word| match algebra {
                Algebra::Reach => u16::from(word != self.algebra.none()),
                Algebra::Distance | Algebra::Steepest => word,
            })
            .collect()
    }
}

/// The table of a hall's first points.
fn first_points(hall: &[u16], points: usize, size: usize) -> Vec<u16> {
    let rows = hall.chunks_exact(points).take(size);
    rows.flat_map(|row| &row[..size]).copied().collect()
}

/// Whether some job in distance has a pair of points that is far, and one without a way.
pub fn has_far_and_none(list: &JobList) -> bool {
    let jobs = list.jobs().into_iter();
    jobs.filter(|job| job.algebra == Algebra::Distance)
        .any(|job| lengths::has_far_and_none(&lengths(job.size, job.weights)))
}

/// Whether the list has the largest order and the largest number of jobs.
pub fn is_largest(list: &JobList) -> bool {
    list.order == MAX_ORDER && list.sizes.len() == MAX_JOBS
}

/// Whether some job has fewer points than the array's order: only then does a line that shows the order for the size differ.
pub fn has_job_below_order(list: &JobList) -> bool {
    list.sizes.iter().any(|&size| size < list.order)
}

/// Whether some job has another size than the one before it, and another algebra.
pub fn neighbours_differ(list: &JobList) -> bool {
    let jobs = list.jobs();
    let mut pairs = jobs.windows(2);
    pairs.any(|pair| pair[0].size != pair[1].size && pair[0].algebra != pair[1].algebra)
}

/// Whether some job has another size than the one before it, in the same algebra.
pub fn sizes_differ(list: &JobList) -> bool {
    let jobs = list.jobs();
    let mut pairs = jobs.windows(2);
    pairs.any(|pair| pair[0].size != pair[1].size && pair[0].algebra == pair[1].algebra)
}

/// Whether some job and the one before it are one hall with more and with fewer points, at least 2. Tables of one word
/// alone count as well.
pub fn has_same_hall(list: &JobList) -> bool {
    list.jobs().windows(2).any(|pair| {
        let (small, large) = match pair[0].size < pair[1].size {
            true => (pair[0], pair[1]),
            false => (pair[1], pair[0]),
        };
        let part = first_points(large.weights, large.size, small.size);
        small.size >= 2 && small.size < large.size && part == small.weights
    })
}

/// Whether some job in reach has the links of a neighbour in another algebra, at least 2 points. As above.
pub fn has_hall_in_two_algebras(list: &JobList) -> bool {
    let jobs = list.jobs();
    let mut pairs = jobs.windows(2);
    pairs.any(|pair| pair[0].size >= 2 && have_same_links(&pair[0], &pair[1]))
}
