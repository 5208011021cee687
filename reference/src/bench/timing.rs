//! Contenders timed in one run: many rounds of all of them in turn, and each one's shortest.

use std::time::{Duration, Instant};

/// Rounds are made until both the time and their least number are reached.
const TIME: Duration = Duration::from_millis(1500);
const MIN_ROUNDS: usize = 10;

/// One round of a contender.
pub type Contender<'a> = Box<dyn FnMut() + 'a>;

/// Each contender's shortest time in nanoseconds.
pub fn best_times<const N: usize>(contenders: [Contender; N]) -> [f64; N] {
    best_times_in(MIN_ROUNDS, contenders)
}

/// So too, for rounds so long that there can be few.
pub fn best_times_in<const N: usize>(
    min_rounds: usize,
    mut contenders: [Contender; N],
) -> [f64; N] {
    let mut best = [Duration::MAX; N];
    let mut rounds = 0;
    let start = Instant::now();
    while rounds < min_rounds || start.elapsed() < TIME {
        // Each goes first in its turn, so that none always follows the same other.
        for turn in 0..N {
            let at = (rounds + turn) % N;
            let start = Instant::now();
            contenders[at]();
            best[at] = best[at].min(start.elapsed());
        }
        rounds += 1;
    }
    best.map(|time| time.as_nanos() as f64)
}
