//! K6 of document 02 in arrays: the tables of the same links among the jobs of one list, in two lists, and one closed by the
//! array and one by the elimination. In two lists all else differs: the order, the places of the jobs, and the ticks made.

use crate::agreement::{have_same_links, pair_kinds, part_kinds, twin, Closed, Pair};
use crate::calls::Calls;
use crate::comparison::Comparison;
use crate::elimination::tables::shuffled;
use crate::job_text::{Job, JobList, MAX_JOBS, MAX_ORDER};
use crate::random::Random;
use crate::systolic::memory::RunCall;
use crate::systolic::moments::any_pace;
use crate::systolic::part_starts;
use crate::systolic::state::total;

const ONE_ARRAY: &str = "pairs by one array, ";
const TWO_ARRAYS: &str = "pairs by two arrays, ";
const EACH_WAY: &str = "pairs one each way, ";

/// How two tables may lie in one list, in two, and which of them an array closed.
const PLACES: [[&str; 2]; 7] = [
    ["nose to tail in one list", "other jobs between"],
    ["two arrays of equal order", "two arrays of different order"],
    ["equal ticks made", "different ticks made"],
    ["the same place in two lists", "different places"],
    ["one array run to its end", "it was stopped before"],
    ["the other run to its end", "the other was stopped before"],
    ["reach by the array", "the other by the array"],
];

/// A list that was started and only run, as one of its runs left it.
pub struct Ran {
    list: JobList,
    ticks: usize,
    results: Vec<u16>,
}

impl Ran {
    pub fn new(list: &JobList, call: &RunCall) -> Ran {
        Ran {
            list: list.clone(),
            ticks: call.header().tick,
            results: call.results.clone(),
        }
    }

    /// The table of the job at this place.
    fn closed(&self, place: usize) -> Closed<'_> {
        let (job, start) = (
            self.list.jobs()[place],
            part_starts(&self.list.sizes)[place],
        );
        let words = &self.results[start..start + job.weights.len()];
        // By demand 3, entry (i, k) leaves on tick 4Nq + 4N - 1 + i + k.
        let first = 4 * usize::from(self.list.order) * (place + 1) - 1;
        Closed::part(job, words, self.ticks.saturating_sub(first))
    }

    fn is_ended(&self) -> bool {
        self.ticks == total(self.list.order.into(), self.list.sizes.len())
    }
}

/// The twin of each job, in some lists beside the jobs themselves, in any order of the jobs and mostly another order of the
/// array; and the places of the twins.
pub fn twins(random: &mut Random, list: &JobList) -> (JobList, Vec<usize>) {
    let jobs = list.jobs();
    let twins: Vec<_> = jobs.iter().map(|&job| twin(random, job)).collect();
    let mut tables: Vec<Job> = jobs.clone();
    for (table, (algebra, weights)) in tables.iter_mut().zip(&twins) {
        (table.algebra, table.weights) = (*algebra, weights);
    }
    if 2 * jobs.len() <= MAX_JOBS && random.one_in(2) {
        tables.extend(&jobs);
    }
    let least = list.sizes.iter().copied().max().unwrap_or(1);
    let other = random.between(least.into(), MAX_ORDER.min(least + 3).into());
    let mut drawn = JobList::new(random.pick(&[list.order, other as u16, other as u16]));
    let order = shuffled(random, tables.len());
    order.iter().for_each(|&at| drawn.push(tables[at]));
    let place = |twin: usize| order.iter().position(|&at| at == twin);
    let places = (0..jobs.len()).map(|twin| place(twin).expect("each is in the list"));
    (drawn, places.collect())
}

impl<C: Calls> Comparison<C> {
    pub(super) fn expect_pairs(&mut self) {
        for about in [ONE_ARRAY, TWO_ARRAYS, EACH_WAY] {
            self.tally.expect_each(about, &pair_kinds());
            self.tally.expect_each(about, &part_kinds());
        }
        for kind in PLACES.as_flattened() {
            self.tally.expect(format!("pairs, {kind}"));
        }
    }

    /// A list, and the one with its jobs' twins.
    pub fn compare_with_twins(&mut self, list: &JobList) -> Result<(), String> {
        let (twins, places) = twins(&mut self.random, list);
        let mut rans = Vec::new();
        for list in [list, &twins] {
            let pace = any_pace(&mut self.random, list.order.into());
            rans.push(self.compare_list(list, pace)?);
        }
        for ran in rans.iter().flatten() {
            self.compare_in_one(ran)?;
        }
        if let [Some(ran), Some(twins)] = &rans[..] {
            self.compare_in_two(ran, twins, &places)?;
            let place = self.random.below(places.len());
            self.compare_each_way(&ran.closed(place), twins.list.jobs()[places[place]])?;
        }
        Ok(())
    }

    fn compare_in_one(&mut self, ran: &Ran) -> Result<(), String> {
        let jobs = ran.list.jobs();
        for (second, job) in jobs.iter().enumerate() {
            for first in (0..second).filter(|&first| have_same_links(&jobs[first], job)) {
                self.compare_pair(ONE_ARRAY, ran.closed(first), ran.closed(second))?;
                self.count_place(0, second - first == 1);
            }
        }
        Ok(())
    }

    fn compare_in_two(&mut self, ran: &Ran, twins: &Ran, places: &[usize]) -> Result<(), String> {
        self.count_place(1, ran.list.order == twins.list.order);
        self.count_place(2, ran.ticks == twins.ticks);
        self.count_place(4, ran.is_ended());
        self.count_place(5, twins.is_ended());
        for (place, &twin) in places.iter().enumerate() {
            self.compare_pair(TWO_ARRAYS, ran.closed(place), twins.closed(twin))?;
            self.count_place(3, place == twin);
        }
        Ok(())
    }

    /// The twin by the elimination.
    fn compare_each_way(&mut self, by_array: &Closed, twin: Job) -> Result<(), String> {
        let words = self.closed(twin)?;
        let by_elimination = Closed::whole(twin, &words);
        self.compare_pair(EACH_WAY, *by_array, by_elimination)?;
        self.count_place(6, by_array.is_in_reach());
        Ok(())
    }

    fn compare_pair(&mut self, about: &str, one: Closed, other: Closed) -> Result<(), String> {
        let pair = Pair::new(one, other);
        let checked = pair.check();
        checked.map_err(|what| format!("{about}{what}"))?;
        self.tally.look(about, &pair_kinds(), &pair);
        self.tally.look(about, &part_kinds(), &pair);
        self.tally.count(about);
        Ok(())
    }

    fn count_place(&mut self, row: usize, is_first: bool) {
        let kind = PLACES[row][usize::from(!is_first)];
        self.tally.count(format!("pairs, {kind}"));
    }
}
