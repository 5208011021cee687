//! Calls that have to be refused: a right call, damaged in one or more of its parts.

use crate::random::Random;

/// Its name, the refusal for it alone, and what it does to a call that was right as the last argument says. The damages of
/// a call stand in the order in which they are made together, so that each finds the parts it looks at.
pub type Damage<Call> = (&'static str, u32, fn(&mut Random, &mut Call, &Call));

/// Some of them, in their order.
pub type Set<Call> = Vec<&'static Damage<Call>>;

/// For each damage alone, for each pair of them, and sets of any.
const SINGLE_DAMAGES: usize = 3_000;
const PAIRS_OF_DAMAGES: usize = 500;
const SETS_OF_DAMAGES: usize = 10_000;

pub fn damage_sets<Call>(random: &mut Random, all: &'static [Damage<Call>]) -> Vec<Set<Call>> {
    let mut sets = Vec::new();
    for (at, first) in all.iter().enumerate() {
        sets.extend(vec![vec![first]; SINGLE_DAMAGES]);
        for second in &all[at + 1..] {
            sets.extend(vec![vec![first, second]; PAIRS_OF_DAMAGES]);
        }
    }
    for _ in 0..SETS_OF_DAMAGES {
        let chances = random.between(2, 3);
        sets.push(all.iter().filter(|_| random.one_in(chances)).collect());
    }
    sets.retain(|set: &Set<Call>| !set.is_empty());
    sets
}

pub fn damaged<Call: Clone>(random: &mut Random, right: &Call, set: &[&Damage<Call>]) -> Call {
    let mut call = right.clone();
    for (_, _, make) in set {
        make(random, &mut call, right);
    }
    call
}

/// Whether a damage of this refusal is among them.
pub fn has<Call>(set: &[&Damage<Call>], wanted: u32) -> bool {
    set.iter().any(|&&(_, number, _)| number == wanted)
}

/// The one that a call with all of them is refused with: `numbers` are in the order of the tests.
pub fn first_number<Call>(numbers: &[u32], set: &[&Damage<Call>]) -> u32 {
    let first = numbers.iter().find(|&&number| has(set, number));
    *first.expect("each refusal is listed")
}
