//! The elimination: every word of many random tables, held against the reference and, as K6 of document 02 wants it,
//! against the same links closed in another algebra; and the number and the untouched result of many damaged calls.

use crate::agreement::{pair_kinds, twin, Closed, Pair};
use crate::algebra::Algebra;
use crate::calls::Calls;
use crate::comparison::{told_of, Comparison};
use crate::damages::{damage_sets, damaged, first_number, has};
use crate::elimination::damages::{right_call, Call, DAMAGES};
use crate::elimination::lengths::{has_far_and_none, lengths, word_of, LARGEST_MEASURED};
use crate::elimination::refusal::{refusal, NUMBERS};
use crate::elimination::tables::{table, Kind};
use crate::elimination::{eliminate, words_of};
use crate::job_text::Job;
use crate::lending::{any_part, word_difference, Lent};
use crate::MAX_SIZE;

/// Beside the sweep over all sizes.
const MORE_TABLES: usize = 30_000;
const PAIRS: &str = "pairs by the elimination, ";
const FAR_AND_NONE: &str = "tables with a far pair and one of none";

impl<C: Calls> Comparison<C> {
    pub fn compare_eliminations(&mut self) -> Result<(), String> {
        self.tally.expect(FAR_AND_NONE);
        self.tally.expect_each(PAIRS, &pair_kinds());
        for algebra in Algebra::ALL {
            self.tally.expect(tables_in(algebra));
        }
        self.compare_every_size()?;
        for algebra in [Algebra::Distance, Algebra::Steepest] {
            self.compare_joined(algebra)?;
        }
        for _ in 0..MORE_TABLES {
            self.compare_any_table()?;
        }
        self.compare_elimination_damages()
    }

    fn compare_every_size(&mut self) -> Result<(), String> {
        for size in 1..=MAX_SIZE {
            for algebra in Algebra::ALL {
                for kind in Kind::ALL {
                    let weights = table(&mut self.random, algebra, size, kind);
                    self.compare_table(Job::new(algebra, size, &weights))?;
                }
            }
        }
        Ok(())
    }

    /// Two links in a row, of all pairs of words near the ends of 16 bits and near sums of 65534.
    fn compare_joined(&mut self, algebra: Algebra) -> Result<(), String> {
        let none = algebra.none();
        let firsts = [0, 255, 25532, 32765, 40000, 65531].into_iter();
        let words: Vec<u16> = firsts.flat_map(|first| first..=first + 4).collect();
        for &x in &words {
            for &y in &words {
                let links = [0, x, none, none, 0, y, none, none, 0];
                self.compare_table(Job::new(algebra, 3, &links))?;
            }
        }
        Ok(())
    }

    /// Mostly small.
    pub fn compare_any_table(&mut self) -> Result<(), String> {
        let random = &mut self.random;
        let largest = if random.one_in(16) { MAX_SIZE } else { 12 };
        let (size, algebra) = (random.between(1, largest), random.pick(&Algebra::ALL));
        let kind = random.pick(&Kind::ALL);
        let weights = table(random, algebra, size, kind);
        self.compare_table(Job::new(algebra, size, &weights))
    }

    /// With the same links in another algebra.
    fn compare_table(&mut self, table: Job) -> Result<(), String> {
        let (algebra, weights) = twin(&mut self.random, table);
        let twin = Job::new(algebra, table.size, &weights);
        let words = [self.closed(table)?, self.closed(twin)?];
        let closed = Closed::whole(table, &words[0]);
        let pair = Pair::new(closed, Closed::whole(twin, &words[1]));
        pair.check()?;
        self.tally.look(PAIRS, &pair_kinds(), &pair);
        for (table, words) in [(table, &words[0]), (twin, &words[1])] {
            let wanted = eliminate(table.algebra, table.size, table.weights);
            let told = word_difference("closed table", words, &wanted);
            told.map_err(|what| told_of(&what, &table))?;
            self.measure(table, words)?;
        }
        Ok(())
    }

    /// Counts the table, and holds small ones in distance against lengths, which know no algebra: by K6 they hold for reach.
    fn measure(&mut self, table: Job, words: &[u16]) -> Result<(), String> {
        self.tally.count(tables_in(table.algebra));
        if table.algebra == Algebra::Distance && table.size <= LARGEST_MEASURED {
            let lengths = lengths(table.size, table.weights);
            let wanted: Vec<u16> = lengths.iter().map(|&length| word_of(length)).collect();
            word_difference("closed table, by lengths,", words, &wanted)?;
            if has_far_and_none(&lengths) {
                self.tally.count(FAR_AND_NONE);
            }
        }
        Ok(())
    }

    /// The table as the call closes it.
    pub fn closed(&mut self, table: Job) -> Result<Vec<u16>, String> {
        let call = Call::new(table.algebra, table.size, table.weights);
        match self.lend_table(&call)? {
            (0, lent) => Ok(words_of(lent.taken_back(1)?[1])),
            (number, _) => Err(told_of(&format!("refused with {number}"), &table)),
        }
    }

    pub fn compare_elimination_damages(&mut self) -> Result<(), String> {
        for number in NUMBERS {
            self.tally.expect(format!("refusal {number}"));
        }
        for set in damage_sets(&mut self.random, &DAMAGES) {
            let right = right_call(&mut self.random, has(&set, 5));
            let call = damaged(&mut self.random, &right, &set);
            let first = first_number(&NUMBERS, &set);
            let wanted = refusal(call.algebra, call.size, &call.weights, call.result_len);
            assert_eq!(wanted, first, "the reference contradicts itself");
            let (number, lent) = self.lend_table(&call)?;
            if number != wanted {
                let what = format!("returned {number}, wanted {wanted}");
                return Err(told_of(&what, &call));
            }
            let told = lent.stayed();
            told.map_err(|what| told_of(&format!("refused with {number}, {what}"), &call))?;
            self.tally.count(format!("refusal {number}"));
        }
        Ok(())
    }

    /// The number returned, with the weights and a result that held any bytes.
    fn lend_table(&mut self, call: &Call) -> Result<(u32, Lent<u8, 2>), String> {
        let result = any_part(&mut self.random, call.result_len);
        let mut lent = Lent::new(&mut self.random, [&call.weights, &result]);
        let [weights, result] = lent.parts();
        let number = self
            .calls
            .eliminate(call.algebra, call.size, weights, result);
        let told = lent.taken_back(1).map(|_| ());
        told.map_err(|what| told_of(&what, call))?;
        Ok((number, lent))
    }
}

fn tables_in(algebra: Algebra) -> String {
    format!("tables in {}", algebra.name())
}
