//! Of a call with several damages, the first in the order of the tests is the refusal; and each refusal has a damage.

use reference::damages::{damage_sets, damaged, first_number, has, Damage, Set};
use reference::elimination;
use reference::job_text::JobList;
use reference::random::Random;
use reference::systolic::memory::Call;
use reference::systolic::moments::{any_list_where, right_run, right_start};
use reference::systolic::refusal::{RUN_NUMBERS, START_NUMBERS};
use reference::systolic::run_damages::RUN_DAMAGES;
use reference::systolic::start_damages::START_DAMAGES;
use reference::ways;
use std::fmt::Debug;

fn assert_first<Call: Clone + Debug>(
    all: &'static [Damage<Call>],
    numbers: &[u32],
    right: impl Fn(&mut Random, &Set<Call>) -> Call,
    refusal: impl Fn(Call) -> u32,
) {
    let mut random = Random::new(13);
    let mut met = Vec::new();
    for set in damage_sets(&mut random, all).into_iter().step_by(10) {
        let right = right(&mut random, &set);
        assert_eq!(refusal(right.clone()), if has(&set, 20) { 20 } else { 0 });
        let call = damaged(&mut random, &right, &set);
        let number = refusal(call.clone());
        assert_eq!(number, first_number(numbers, &set), "{call:?}");
        met.push(number);
    }
    assert!(numbers.iter().all(|number| met.contains(number)));
}

#[test]
fn of_the_elimination() {
    use elimination::damages::{right_call, Call, DAMAGES};
    use elimination::refusal::{refusal, NUMBERS};
    let right = |random: &mut Random, set: &Set<Call>| right_call(random, has(set, 5));
    assert_first(&DAMAGES, &NUMBERS, right, |call| {
        refusal(call.algebra, call.size, &call.weights, call.result_len)
    });
}

#[test]
fn of_ways() {
    use ways::damages::{right_call, Call, DAMAGES};
    use ways::refusal::{refusal, NUMBERS};
    let right =
        |random: &mut Random, set: &Set<Call>| right_call(random, has(set, 5), has(set, 20));
    assert_first(&DAMAGES, &NUMBERS, right, |call| {
        refusal(&call.question(), call.list_len)
    });
}

#[test]
fn of_start_and_run() {
    fn with_reach<C>(right: fn(&mut Random, &JobList) -> C) -> impl Fn(&mut Random, &Set<C>) -> C {
        move |random, set| {
            let list = any_list_where(random, |list| list.has_reach() || !has(set, 5));
            right(random, &list)
        }
    }
    let (start, run) = (with_reach(right_start), with_reach(right_run));
    assert_first(&START_DAMAGES, &START_NUMBERS, start, |mut call| {
        call.model()
    });
    assert_first(&RUN_DAMAGES, &RUN_NUMBERS, run, |mut call| call.model());
}
