//! The three algebras, as the table under "Algebras" in document 01 has them.

#[derive(Clone, Copy, Debug, PartialEq, Eq)]
pub enum Algebra {
    Reach,
    Distance,
    Steepest,
}

impl Algebra {
    /// In the order of their numbers.
    pub const ALL: [Algebra; 3] = [Algebra::Reach, Algebra::Distance, Algebra::Steepest];

    /// Nothing where test 1 applies.
    pub fn numbered(number: u16) -> Option<Algebra> {
        Algebra::ALL.get(usize::from(number)).copied()
    }

    pub fn number(self) -> u32 {
        self as u32
    }

    pub fn name(self) -> &'static str {
        match self {
            Algebra::Reach => "reach",
            Algebra::Distance => "distance",
            Algebra::Steepest => "steepest",
        }
    }

    /// The word of a pair with no link.
    pub fn none(self) -> u16 {
        match self {
            Algebra::Reach => 0,
            Algebra::Distance | Algebra::Steepest => 65535,
        }
    }

    /// The word of a point with itself.
    pub fn own(self) -> u16 {
        match self {
            Algebra::Reach => 1,
            Algebra::Distance | Algebra::Steepest => 0,
        }
    }

    /// The better of two words.
    pub fn sum(self, x: u16, y: u16) -> u16 {
        match self {
            Algebra::Reach => x.max(y),
            Algebra::Distance | Algebra::Steepest => x.min(y),
        }
    }

    /// Whether a word betters another: it differs from it and is their sum.
    pub fn betters(self, x: u16, y: u16) -> bool {
        x != y && self.sum(x, y) == x
    }

    /// Two links joined. In distance none comes only from none.
    pub fn product(self, x: u16, y: u16) -> u16 {
        match self {
            Algebra::Reach => x.min(y),
            Algebra::Distance if x == self.none() || y == self.none() => self.none(),
            // K4: 65534 means 65534 or more. In 32 bits the addition cannot wrap, so that it is plain where it is held.
            Algebra::Distance => (u32::from(x) + u32::from(y)).min(65534) as u16,
            Algebra::Steepest => x.max(y),
        }
    }
}
