//! Memory that is lent to a call and watched: what is lent lies between other words, and all but the parts that the call may
//! write has to stay.

use crate::random::Random;
use std::iter;
use std::ops::Range;

/// What memory is made of.
pub trait Word: Copy + PartialEq {
    fn any(random: &mut Random) -> Self;
}

impl Word for u8 {
    fn any(random: &mut Random) -> u8 {
        (random.next_u64() >> 56) as u8
    }
}

impl Word for u16 {
    fn any(random: &mut Random) -> u16 {
        random.word()
    }
}

impl Word for usize {
    fn any(random: &mut Random) -> usize {
        random.next_u64() as usize
    }
}

pub fn any_part<T: Word>(random: &mut Random, len: usize) -> Vec<T> {
    (0..len).map(|_| T::any(random)).collect()
}

/// Parts of memory that are lent, and all of it as it was before the call.
#[derive(Clone)]
pub struct Lent<T, const N: usize> {
    pub words: Vec<T>,
    before: Vec<T>,
    parts: [Range<usize>; N],
}

impl<T: Word, const N: usize> Lent<T, N> {
    /// Each begins at an odd or an even word.
    pub fn new(random: &mut Random, parts: [&[T]; N]) -> Lent<T, N> {
        let mut words: Vec<T> = Vec::new();
        let parts = parts.map(|part| {
            let fence = random.between(8, 23);
            words.extend(any_part::<T>(random, fence));
            words.extend(part);
            words.len() - part.len()..words.len()
        });
        words.extend(any_part::<T>(random, 8));
        Lent {
            before: words.clone(),
            words,
            parts,
        }
    }

    pub fn parts(&mut self) -> [&mut [T]; N] {
        let parts = self.words.get_disjoint_mut(self.parts.clone());
        parts.expect("they lie apart")
    }

    /// As they were.
    pub fn before(&self) -> [&[T]; N] {
        self.parts.each_ref().map(|part| &self.before[part.clone()])
    }

    /// As the call left them, if of these only those from `first` on are changed, and nothing beside them.
    pub fn taken_back(&self, first: usize) -> Result<[&[T]; N], String> {
        let written = self.parts[first..].iter();
        let starts = iter::once(0).chain(written.clone().map(|part| part.end));
        let ends = written.map(|part| part.start).chain([self.words.len()]);
        let mut beside = starts.zip(ends);
        match beside.all(|(start, end)| self.words[start..end] == self.before[start..end]) {
            true => Ok(self.parts.each_ref().map(|part| &self.words[part.clone()])),
            false => Err("words changed that were not lent to be".to_string()),
        }
    }

    /// If nothing is changed.
    pub fn stayed(&self) -> Result<(), String> {
        self.taken_back(N).map(|_| ())
    }
}

/// The first word that is not as wanted.
pub fn word_difference(name: &str, got: &[u16], wanted: &[u16]) -> Result<(), String> {
    let mut pairs = got.iter().zip(wanted).enumerate();
    match pairs.find(|(_, (got, wanted))| got != wanted) {
        Some((at, (got, wanted))) => {
            Err(format!("word {at} of the {name} is {got}, wanted {wanted}"))
        }
        None => Ok(()),
    }
}

#[cfg(test)]
mod tests {
    use super::*;

    /// Every word beside the parts is watched, and of a part that is only read every word.
    #[test]
    fn every_word_is_watched() {
        let untouched = Lent::new(&mut Random::new(18), [&[1u16, 2, 3], &[4, 5], &[]]);
        let [read, written, empty] = untouched.parts.clone();
        assert_eq!(read.len() + written.len() + empty.len(), 5);
        for at in 0..untouched.words.len() {
            let mut touched = untouched.clone();
            touched.words[at] ^= 1;
            assert_eq!(touched.taken_back(1).is_ok(), written.contains(&at));
            assert!(touched.stayed().is_err());
        }
        let parts = untouched.taken_back(1);
        assert_eq!(parts, Ok([&[1, 2, 3][..], &[4, 5], &[]]));
        assert!(untouched.stayed().is_ok());
    }
}
