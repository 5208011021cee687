//! How the lines of a file are written.

use crate::random::Random;

/// From, to and length.
pub type Arc = [u64; 3];

/// The most spaces between parts, and whether numerals have zeros before them.
#[derive(Clone, Copy)]
pub struct Style {
    pub spaces: usize,
    pub zeros: bool,
}

impl Style {
    pub const PLAIN: Style = Style {
        spaces: 1,
        zeros: false,
    };

    pub fn any(random: &mut Random) -> Style {
        match random.below(4) {
            0 => Style {
                spaces: random.between(1, 6),
                zeros: random.one_in(2),
            },
            1 => Style {
                spaces: random.between(1, 2),
                zeros: random.one_in(2),
            },
            _ => Style::PLAIN,
        }
    }

    pub fn numeral(self, random: &mut Random, value: u64) -> String {
        let width = if self.zeros { random.between(1, 10) } else { 1 };
        format!("{value:0width$}")
    }

    /// The words of a line with spaces between.
    pub fn join(self, random: &mut Random, parts: &[String]) -> Vec<u8> {
        let mut line = parts[0].clone();
        for part in &parts[1..] {
            line += &" ".repeat(random.between(1, self.spaces));
            line += part;
        }
        line.into_bytes()
    }

    pub fn problem(self, random: &mut Random, points: u64, arcs: u64) -> Vec<u8> {
        let numerals = [points, arcs].map(|value| self.numeral(random, value));
        let [points, arcs] = numerals;
        self.join(random, &["p".to_string(), "sp".to_string(), points, arcs])
    }

    pub fn arc(self, random: &mut Random, arc: Arc) -> Vec<u8> {
        let [from, to, length] = arc.map(|value| self.numeral(random, value));
        self.join(random, &["a".to_string(), from, to, length])
    }
}
