//! The parts of a call of Start or Run as a damage leaves them.

use crate::elimination::damages::wrong_word;
use crate::random::Random;
use crate::systolic::memory::OwnJobs;
use crate::systolic::part_starts;

/// Memory that is made to fit a wrong number has at most as many words.
pub const MOST_WORDS: usize = 100_000;

/// From `least` on, and some that are `right` where high bits are dropped.
pub fn high_word(random: &mut Random, least: u16, right: u16) -> u16 {
    let (any, high) = (random.word().max(least), 256 + right);
    random.pick(&[
        least,
        least,
        least + 1,
        255,
        high,
        32768 + right,
        65535,
        any,
    ])
}

/// Another number of jobs. The algebras and the weights stay as they are, or fit the new sizes.
pub fn change_count(random: &mut Random, jobs: &mut OwnJobs, order: usize, count: usize) {
    jobs.sizes
        .resize_with(count, || random.between(1, order) as u16);
    if random.one_in(2) {
        change_algebras(random, jobs, count);
    }
    fit_weights_perhaps(random, jobs);
}

/// Another number of algebras.
pub fn change_algebras(random: &mut Random, jobs: &mut OwnJobs, count: usize) {
    jobs.algebras.resize_with(count, || random.below(3) as u16);
}

/// A number that no algebra has, in any place; where there is none, nothing.
pub fn damage_algebra(random: &mut Random, jobs: &mut OwnJobs) {
    if let Some(last) = jobs.algebras.len().checked_sub(1) {
        let anywhere = random.below(last + 1);
        let place = random.pick(&[0, last, anywhere]);
        jobs.algebras[place] = high_word(random, 3, jobs.algebras[place]);
    }
}

/// A size outside 1 to the order. Some are right ones where high bits are dropped.
pub fn damage_size(random: &mut Random, jobs: &mut OwnJobs, order: usize) {
    if jobs.sizes.is_empty() {
        return;
    }
    let job = random.below(jobs.sizes.len());
    let (order, size) = (order as u16, jobs.sizes[job]);
    let above = order + random.between(1, 40) as u16;
    let next = order + 1;
    jobs.sizes[job] = random.pick(&[0, 0, next, next, above, 33, 256 + size, 32768 + size, 65535]);
    fit_weights_perhaps(random, jobs);
}

fn fit_weights_perhaps(random: &mut Random, jobs: &mut OwnJobs) {
    let words = jobs.lent().words();
    if words <= MOST_WORDS && random.one_in(2) {
        jobs.weights.resize(words, 1);
    }
}

/// Not the sum of n². Among them the length if every job were full.
pub fn wrong_words_len(random: &mut Random, jobs: &OwnJobs, order: usize) -> usize {
    match jobs.lent().words() {
        right if right > MOST_WORDS => jobs.weights.len(),
        right => random.not(right, &[order, jobs.sizes.len() * order * order]),
    }
}

/// A word that reach has not, anywhere in the jobs in reach.
pub fn damage_word(random: &mut Random, jobs: &mut OwnJobs) {
    let places = reach_places(jobs);
    if let (Some(&first), Some(&last)) = (places.first(), places.last()) {
        let anywhere = random.pick(&places);
        let place = random.pick(&[first, last, anywhere, anywhere, anywhere]);
        jobs.weights[place] = wrong_word(random, 1).1;
    }
}

/// Where the words of the jobs in reach lie, if the sizes are right.
fn reach_places(jobs: &OwnJobs) -> Vec<usize> {
    let starts = part_starts(&jobs.sizes);
    let parts = jobs.algebras.iter().zip(&jobs.sizes).zip(&starts);
    let in_reach = parts.filter(|((&algebra, _), _)| algebra == 0);
    let within = |place: usize| place.min(jobs.weights.len());
    in_reach
        .flat_map(|((_, &size), &start)| within(start)..within(start + usize::from(size).pow(2)))
        .collect()
}

/// Not 4 + 3N² and not below 4: a plane missing, the header missing, or another order's too.
pub fn wrong_state_len(random: &mut Random, order: usize) -> usize {
    let of_order = |order: usize| 4 + 3 * order * order;
    let right = of_order(order);
    let others = [
        of_order(order - 1),
        of_order(order + 1),
        right - 4,
        right - order * order,
    ];
    random.not(right, &others).max(4)
}
