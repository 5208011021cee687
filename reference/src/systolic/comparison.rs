//! Start and Run: after every call its answer, and every word of state, results, scratch and ticks made. Lists of all orders
//! are started and run in pieces of any length, with refused calls between, and states that nobody started are run as well.

use crate::calls::Calls;
use crate::comparison::{told_of, Comparison};
use crate::damages::{damage_sets, damaged, first_number, has, Damage, Set};
use crate::elimination::tables::Kind;
use crate::job_text::{JobList, MAX_JOBS};
use crate::random::Random;
use crate::systolic::checks::eliminations;
use crate::systolic::kinds::{RunKind, LISTS, RUNS, SCRATCH_LENS, WRONG_ALGEBRAS};
use crate::systolic::memory::{Call, RunCall};
use crate::systolic::moments::{allowance, alter, any_list, any_list_where, any_pace, any_words};
use crate::systolic::moments::{right_run, right_start, Pace};
use crate::systolic::pairs::Ran;
use crate::systolic::run_damages::RUN_DAMAGES;
use crate::systolic::start_damages::START_DAMAGES;
use crate::texts::lists::{drawn_list, Sizes};

/// Each with the same links in other algebras as a list of its own.
const MANY_LISTS: usize = 27_000;
/// Of each order, with most jobs; the first of them a tick at a time.
const LARGE_LISTS: usize = 120;
const LARGE_ORDERS: [usize; 2] = [31, 32];
const LARGE_SINGLE: usize = 12;
/// More than a list a tick at a time has ticks.
const MOST_RUNS: usize = 3_000;

const UNTOUCHED: &str = "run to the end, nothing changed";

impl<C: Calls> Comparison<C> {
    pub fn compare_array(&mut self) -> Result<(), String> {
        self.expect_calls();
        self.expect_pairs();
        for _ in 0..MANY_LISTS {
            let list = any_list(&mut self.random);
            self.compare_with_twins(&list)?;
        }
        for order in LARGE_ORDERS {
            self.compare_large_lists(order)?;
        }
        self.compare_damages(&START_DAMAGES, right_start)?;
        self.compare_damages(&RUN_DAMAGES, right_run)
    }

    fn expect_calls(&mut self) {
        self.tally.expect(UNTOUCHED);
        self.tally.expect_each("", &LISTS);
        self.tally.expect_each("", &RUNS);
        self.tally.expect_each("Run, ", &SCRATCH_LENS);
        self.expect_damages(&START_DAMAGES);
        self.expect_damages(&RUN_DAMAGES);
    }

    fn expect_damages<A: Call>(&mut self, damages: &[Damage<A>]) {
        let call = A::NAME;
        self.tally
            .expect_each(&format!("{call}, "), &WRONG_ALGEBRAS);
        for number in A::NUMBERS {
            self.tally.expect(format!("{call} refused with {number}"));
        }
        for (name, ..) in damages {
            self.tally.expect(format!("{call}, {name} alone"));
        }
    }

    fn compare_large_lists(&mut self, order: usize) -> Result<(), String> {
        for at in 0..LARGE_LISTS {
            let random = &mut self.random;
            let sizes = random.pick(&Sizes::ALL);
            let list = drawn_list(random, order, MAX_JOBS, sizes, &Kind::ALL);
            let pace = match at < LARGE_SINGLE {
                true => Pace::Single,
                false => any_pace(random, order),
            };
            self.compare_list(&list, pace)?;
        }
        Ok(())
    }

    /// Runs the list to its end and a little further, with refused runs and changes between. What it was after one of its
    /// runs, if it was started and nothing was changed before.
    pub fn compare_list(&mut self, list: &JobList, pace: Pace) -> Result<Option<Ran>, String> {
        self.tally.count("lists");
        self.tally.look("", &LISTS, list);
        let (refused, altered) = match pace {
            Pace::Single => (30, 300),
            _ => (4, 12),
        };
        let mut call = right_run(&mut self.random, list);
        let mut changed = self.random.one_in(4);
        if !changed {
            self.start(list, &mut call)?;
        }
        let (mut runs_after, mut number, mut ran) = (self.random.between(1, 3), 0, None);
        for runs in 0..MOST_RUNS {
            if self.random.one_in(refused) {
                self.compare_refused(&call)?;
            }
            // A change may have made a job's words unfit for its algebra.
            if number != 0 || self.random.one_in(altered) {
                alter(&mut self.random, &mut call);
                changed = true;
            }
            number = self.run_on(&mut call, pace, changed)?;
            if !changed && self.random.one_in(runs + 1) {
                ran = Some(Ran::new(list, &call));
            }
            if call.header().ticks_left() == 0 {
                if runs_after == 0 {
                    self.check_ended(list, &call, changed, runs);
                    break;
                }
                runs_after -= 1;
            }
        }
        Ok(ran)
    }

    /// A state of any words, perhaps after calls that are refused.
    fn start(&mut self, list: &JobList, call: &mut RunCall) -> Result<(), String> {
        let mut start = right_start(&mut self.random, list);
        if self.random.one_in(3) {
            let fit = fit_for(&START_DAMAGES, list.has_reach());
            let set = [self.random.pick(&fit)];
            self.compare_damaged(&start, &set)?;
        }
        self.compare_call(&mut start)?;
        call.state = start.state;
        Ok(())
    }

    fn run_on(&mut self, call: &mut RunCall, pace: Pace, changed: bool) -> Result<u32, String> {
        call.allowance = allowance(&mut self.random, pace, call);
        call.scratch = any_words(&mut self.random, call.scratch.len());
        call.made = self.random.word();
        self.compare_run(call, changed)
    }

    /// What was started and only run holds the eliminations at its end.
    fn check_ended(&mut self, list: &JobList, call: &RunCall, changed: bool, runs: usize) {
        if !changed {
            let are_right = call.results == eliminations(list);
            assert!(are_right, "the reference contradicts itself");
            if runs > 1 {
                self.tally.count(UNTOUCHED);
            }
        }
    }

    /// One or two damages to a copy of the run.
    fn compare_refused(&mut self, call: &RunCall) -> Result<(), String> {
        let fit = fit_for(&RUN_DAMAGES, call.jobs.algebras.contains(&0));
        let mut places = vec![self.random.below(fit.len()); self.random.between(1, 2)];
        places[0] = self.random.below(fit.len());
        places.sort();
        places.dedup();
        let set: Set<RunCall> = places.into_iter().map(|place| fit[place]).collect();
        self.compare_damaged(call, &set)
    }

    fn compare_damages<A: Call>(
        &mut self,
        damages: &'static [Damage<A>],
        right: fn(&mut Random, &JobList) -> A,
    ) -> Result<(), String> {
        for set in damage_sets(&mut self.random, damages) {
            // Only reach has words that are refused.
            let fits = |list: &JobList| list.has_reach() || !has(&set, 5);
            let list = any_list_where(&mut self.random, fits);
            let right = right(&mut self.random, &list);
            self.compare_damaged(&right, &set)?;
        }
        Ok(())
    }

    fn compare_damaged<A: Call>(&mut self, right: &A, set: &[&Damage<A>]) -> Result<(), String> {
        let mut call = damaged(&mut self.random, right, set);
        let number = self.compare_call(&mut call)?;
        let first = first_number(A::NUMBERS, set);
        assert_eq!(number, first, "the reference contradicts itself");
        if let [(name, number, _)] = set {
            let about = format!("{}, ", A::NAME);
            self.tally.count(format!("{about}{name} alone"));
            if matches!(number, 1 | 5) || *name == "number of algebras" {
                self.tally.look(&about, &WRONG_ALGEBRAS, call.jobs());
            }
            if let (12, Some(lens)) = (number, call.scratch()) {
                self.tally.look(&about, &SCRATCH_LENS, &lens);
            }
        }
        Ok(())
    }

    /// A run. `changed` says that the memory is not as Start and runs alone left it.
    fn compare_run(&mut self, call: &mut RunCall, changed: bool) -> Result<u32, String> {
        let kind = RunKind::of(call, changed);
        let number = self.compare_call(call)?;
        if let (0, Some(kind)) = (number, kind) {
            self.tally.look("", &RUNS, &kind);
        }
        Ok(number)
    }

    /// The number returned, with the memory in `call` as both leave it.
    fn compare_call<A: Call>(&mut self, call: &mut A) -> Result<u32, String> {
        let (lent, mut wanted) = (call.clone(), call.clone());
        let wanted_number = wanted.model();
        let number = call.lend(&mut self.random, &self.calls);
        let told = number.and_then(|number| same(number, wanted_number));
        let told = told.and_then(|()| call.compare(&wanted));
        told.map_err(|what| told_of(&format!("{}: {what}", A::NAME), &lent))?;
        self.tally.count(match wanted_number {
            0 => format!("{} accepted", A::NAME),
            number => format!("{} refused with {number}", A::NAME),
        });
        Ok(wanted_number)
    }
}

fn same(number: u32, wanted: u32) -> Result<(), String> {
    match number == wanted {
        true => Ok(()),
        false => Err(format!("returned {number}, wanted {wanted}")),
    }
}

/// All damages, or where no job is in reach those that need none.
fn fit_for<Call>(all: &'static [Damage<Call>], has_reach: bool) -> Set<Call> {
    let fit = all
        .iter()
        .filter(|(_, number, _)| has_reach || *number != 5);
    fit.collect()
}
