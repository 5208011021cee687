//! What a comparison has met, so that it cannot pass with one kind of input alone. It says which kinds it has to meet, and
//! one that was not met fails it. How often a kind was met is printed and not judged.

use std::collections::BTreeMap;

/// A kind of input: its name, and whether an input is of it.
pub type Kind<T> = (&'static str, fn(&T) -> bool);

#[derive(Default)]
pub struct Tally {
    met: BTreeMap<String, usize>,
}

impl Tally {
    pub fn expect(&mut self, kind: impl Into<String>) {
        self.met.entry(kind.into()).or_default();
    }

    pub fn expect_each<T>(&mut self, about: &str, kinds: &[Kind<T>]) {
        for (kind, _) in kinds {
            self.expect(format!("{about}{kind}"));
        }
    }

    pub fn count(&mut self, kind: impl Into<String>) {
        *self.met.entry(kind.into()).or_default() += 1;
    }

    /// Counts each kind that the input is of.
    pub fn look<T>(&mut self, about: &str, kinds: &[Kind<T>], input: &T) {
        for (kind, _) in kinds.iter().filter(|(_, is_of)| is_of(input)) {
            self.count(format!("{about}{kind}"));
        }
    }

    pub fn met(&self, kind: &str) -> usize {
        self.met.get(kind).copied().unwrap_or(0)
    }

    /// Of all kinds whose names begin so.
    pub fn sum(&self, about: &str) -> usize {
        let kinds = self.met.iter().filter(|(kind, _)| kind.starts_with(about));
        kinds.map(|(_, met)| met).sum()
    }

    pub fn all_met(&self) -> bool {
        self.met.values().all(|&met| met > 0)
    }

    pub fn print(&self) {
        for (kind, met) in &self.met {
            let remark = if *met == 0 { "  not met" } else { "" };
            println!("{kind:<58}{met:>8}{remark}");
        }
    }
}
