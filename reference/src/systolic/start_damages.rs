//! What can be wrong with a call of Start.

use crate::damages::Damage;
use crate::job_text::MAX_JOBS;
use crate::random::Random;
use crate::systolic::memory::StartCall;
use crate::systolic::wrong_parts::*;

/// From the first test to the last: each later damage is one beside those that were made. An unknown algebra alone comes
/// after all, as another number of algebras may leave no place for it.
pub const START_DAMAGES: [Damage<StartCall>; 8] = [
    ("order", 6, damage_order),
    ("number of sizes", 7, |random, call, right| {
        let n = right.order;
        let count = random.pick(&[0, 0, MAX_JOBS + 1, MAX_JOBS + 1, 32, 256 + n]);
        change_count(random, &mut call.jobs, n, count);
    }),
    ("number of algebras", 7, |random, call, _| {
        let count = random.not(call.jobs.sizes.len(), &[1, 16, 17]);
        change_algebras(random, &mut call.jobs, count);
    }),
    ("a size", 8, |random, call, right| {
        damage_size(random, &mut call.jobs, right.order);
    }),
    ("length of the weights", 3, |random, call, right| {
        let len = wrong_words_len(random, &call.jobs, right.order);
        call.jobs.weights.resize(len, 1);
    }),
    ("length of the state", 9, |random, call, right| {
        let short = random.below(4);
        let len = wrong_state_len(random, right.order);
        call.state.resize(random.pick(&[short, len, len, len]), 7);
    }),
    // In a job in reach.
    ("a word above 1", 5, |random, call, _| {
        damage_word(random, &mut call.jobs);
    }),
    ("an algebra", 1, |random, call, _| {
        if call.jobs.algebras.is_empty() {
            change_algebras(random, &mut call.jobs, 1);
        }
        damage_algebra(random, &mut call.jobs);
    }),
];

/// Some are right orders where high bits are dropped. The state stays as it is, or fits the new order, or fits what 64
/// bits make of it.
fn damage_order(random: &mut Random, call: &mut StartCall, right: &StartCall) {
    let n = right.order;
    let large = random.large(n);
    call.order = random.pick(&[0, 33, 32 + n, large, large]);
    let square = call.order.wrapping_mul(call.order);
    let wrapped = square.wrapping_mul(3).wrapping_add(4);
    if wrapped <= MOST_WORDS && random.one_in(2) {
        call.state.resize(wrapped, 7);
    }
}
