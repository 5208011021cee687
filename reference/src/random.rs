//! SplitMix64: a small generator with a fixed seed, so that every run meets the same tables.

pub struct Random {
    state: u64,
}

impl Random {
    pub fn new(seed: u64) -> Random {
        Random { state: seed }
    }

    pub fn next_u64(&mut self) -> u64 {
        self.state = self.state.wrapping_add(0x9E37_79B9_7F4A_7C15);
        let mut z = self.state;
        z = (z ^ (z >> 30)).wrapping_mul(0xBF58_476D_1CE4_E5B9);
        z = (z ^ (z >> 27)).wrapping_mul(0x94D0_49BB_1331_11EB);
        z ^ (z >> 31)
    }

    /// A number below `bound`; the bounds here are so small that the remainder's bias does not matter.
    pub fn below(&mut self, bound: usize) -> usize {
        (self.next_u64() % bound as u64) as usize
    }

    /// A number from `first` to `last`.
    pub fn between(&mut self, first: usize, last: usize) -> usize {
        first + self.below(last - first + 1)
    }

    pub fn word(&mut self) -> u16 {
        (self.next_u64() >> 48) as u16
    }

    pub fn one_in(&mut self, chances: usize) -> bool {
        self.below(chances) == 0
    }

    pub fn pick<T: Copy>(&mut self, choices: &[T]) -> T {
        choices[self.below(choices.len())]
    }

    pub fn bytes(&mut self, len: usize) -> Vec<u8> {
        (0..len).map(|_| (self.next_u64() >> 56) as u8).collect()
    }

    /// A large number: many are `right` where high bits are dropped, or where its square wraps.
    pub fn large(&mut self, right: usize) -> usize {
        let any = (self.next_u64() >> 8) as usize | 1 << 16;
        let bits = self.pick(&[8, 16, 32, 63]);
        self.pick(&[(1 << bits) + right, 1 << bits, usize::MAX - right, any])
    }

    /// Another length or count than `right`: near it, or of bytes in the place of words, or one of `others`.
    pub fn not(&mut self, right: usize, others: &[usize]) -> usize {
        let near = [right.wrapping_sub(1), right + 1, right / 2, right * 2];
        let far = [0, 256 + right, 65536 + right, self.below(2 * right + 8)];
        let at = self.below(8 + 2 * others.len());
        let drawn = match at {
            0..4 => near[at],
            4..8 => far[at - 4],
            _ => others[at % others.len()],
        };
        match drawn == right || drawn == usize::MAX {
            true => right + 1,
            false => drawn,
        }
    }
}
