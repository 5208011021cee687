//! Ranges: both results of many random ones held against the reference's eliminations, what tables between are closed to
//! held against both results, and the number and the untouched results of many damaged calls.

use crate::algebra::Algebra;
use crate::calls::Calls;
use crate::comparison::{told_of, Comparison};
use crate::damages::{damage_sets, damaged, has};
use crate::elimination::eliminate;
use crate::elimination::tables::Kind;
use crate::lending::{any_part, word_difference, Lent};
use crate::ranges::damages::{first_number, right_call, Call, DAMAGES};
use crate::ranges::is_between;
use crate::ranges::kinds::{damaged_kinds, kinds_in, Met};
use crate::ranges::refusal::refusal;
use crate::ranges::tables::table_between;
use crate::MAX_SIZE;

/// The sweep goes up to here, and takes the largest size too.
const SWEPT: usize = 40;
/// Beside the sweep.
const MORE_RANGES: usize = 10_000;
pub const RANGES: &str = "ranges";
pub const BETWEEN: &str = "tables between";
pub const REFUSED: &str = "ranges refused";

impl<C: Calls> Comparison<C> {
    pub fn compare_ranges(&mut self) -> Result<(), String> {
        for algebra in Algebra::ALL {
            let about = ranges_in(algebra);
            self.tally.expect_each(&about, &kinds_in(algebra));
        }
        for size in (1..=SWEPT).chain([MAX_SIZE]) {
            for algebra in Algebra::ALL {
                for kind in Kind::ALL {
                    let call = Call::right(&mut self.random, algebra, size, kind);
                    self.compare_range(&call)?;
                }
            }
        }
        for _ in 0..MORE_RANGES {
            self.compare_any_range()?;
        }
        self.compare_range_damages()
    }

    pub fn compare_any_range(&mut self) -> Result<(), String> {
        let random = &mut self.random;
        let (size, algebra) = (random.between(1, 12), random.pick(&Algebra::ALL));
        let kind = random.pick(&Kind::ALL);
        let call = Call::right(random, algebra, size, kind);
        self.compare_range(&call)
    }

    fn compare_range(&mut self, call: &Call) -> Result<(), String> {
        self.tally.count(RANGES);
        let (number, lent) = self.lend_range(call)?;
        if number != 0 {
            return Err(told_of(&format!("refused with {number}"), call));
        }
        let [_, _, best, worst] = lent.taken_back(2)?;
        for at_ends in [true, false] {
            self.compare_between(call, [best, worst], at_ends)?;
        }
        let [best_wanted, worst_wanted] = call.bounds().closed();
        let told = word_difference("best result", best, &best_wanted)
            .and_then(|()| word_difference("worst result", worst, &worst_wanted));
        told.map_err(|what| told_of(&what, call))
    }

    fn compare_between(
        &mut self,
        call: &Call,
        results: [&[u16]; 2],
        at_ends: bool,
    ) -> Result<(), String> {
        let asked = call.bounds();
        let algebra = asked.algebra();
        let table = &table_between(&mut self.random, &asked, at_ends);
        let closed = &eliminate(algebra, asked.size, table);
        let ends = |at: usize| results.map(|result| result[at]);
        let mut places = 0..closed.len();
        if let Some(at) = places.find(|&at| !is_between(algebra, ends(at), closed[at])) {
            let (word, ends) = (closed[at], ends(at));
            let what = format!("word {at} of a table between is closed to {word}, not in {ends:?}");
            return Err(told_of(&what, &(table, call)));
        }
        let met = Met {
            asked,
            results,
            table,
            closed,
        };
        self.tally.count(BETWEEN);
        let about = ranges_in(algebra);
        self.tally.look(&about, &kinds_in(algebra), &met);
        Ok(())
    }

    pub fn compare_range_damages(&mut self) -> Result<(), String> {
        for (name, number, _) in &DAMAGES {
            let about = alone(name, *number);
            self.tally.expect_each(&about, damaged_kinds(*number));
        }
        for set in damage_sets(&mut self.random, &DAMAGES) {
            let right = right_call(&mut self.random, has(&set, 5), has(&set, 24));
            let call = damaged(&mut self.random, &right, &set);
            let wanted = refusal(&call.bounds(), call.result_lens);
            let first = first_number(&set);
            assert_eq!(wanted, first, "the reference contradicts itself");
            let (number, lent) = self.lend_range(&call)?;
            if number != wanted {
                let what = format!("returned {number}, wanted {wanted}");
                return Err(told_of(&what, &call));
            }
            let told = lent.stayed();
            told.map_err(|what| told_of(&format!("refused with {number}, {what}"), &call))?;
            self.tally.count(REFUSED);
            if let [(name, number, _)] = set[..] {
                let about = alone(name, *number);
                self.tally.look(&about, damaged_kinds(*number), &call);
            }
        }
        Ok(())
    }

    /// The number returned, with both tables and results that held any words.
    fn lend_range(&mut self, call: &Call) -> Result<(u32, Lent<u16, 4>), String> {
        let random = &mut self.random;
        let results = call.result_lens.map(|len| any_part(random, len));
        let [best, worst] = &call.tables;
        let mut lent = Lent::new(random, [best, worst, &results[0], &results[1]]);
        let [best, worst, best_result, worst_result] = lent.parts();
        let mut asked = call.bounds();
        asked.tables = [best, worst];
        let number = self.calls.close_range(&asked, [best_result, worst_result]);
        let told = lent.taken_back(2).map(|_| ());
        told.map_err(|what| told_of(&what, call))?;
        Ok((number, lent))
    }
}

fn ranges_in(algebra: Algebra) -> String {
    format!("ranges in {}, ", algebra.name())
}

fn alone(name: &str, number: u32) -> String {
    format!("{number} for {name} alone, ")
}
