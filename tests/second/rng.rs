//! Random numbers, lengths and bytes, the same ones for the same seed.

use crate::rules::Lengths;

/// splitmix64: one seed gives one run.
pub struct Rng(pub u64);

impl Rng {
    pub fn next(&mut self) -> u64 {
        self.0 = self.0.wrapping_add(0x9e37_79b9_7f4a_7c15);
        let mixed = (self.0 ^ self.0 >> 30).wrapping_mul(0xbf58_476d_1ce4_e5b9);
        let mixed = (mixed ^ mixed >> 27).wrapping_mul(0x94d0_49bb_1331_11eb);
        mixed ^ mixed >> 31
    }

    pub fn below(&mut self, bound: u64) -> u64 {
        self.next() % bound
    }

    pub fn one_in(&mut self, chances: u64) -> bool {
        self.below(chances) == 0
    }

    pub fn pick<T: Copy>(&mut self, from: &[T]) -> T {
        from[self.below(from.len() as u64) as usize]
    }

    pub fn bytes(&mut self, count: usize) -> Vec<u8> {
        let mut bytes = vec![0; count];
        for chunk in bytes.chunks_mut(8) {
            chunk.copy_from_slice(&self.next().to_le_bytes()[..chunk.len()]);
        }
        bytes
    }

    /// A number beside another: one off, equal in its low bits alone, or at an edge of its width.
    pub fn beside(&mut self, number: u64) -> u64 {
        match self.below(10) {
            0 | 1 => number.wrapping_add(1),
            2 | 3 => number.wrapping_sub(1),
            4 => number ^ 1 << self.below(32),
            5 => number ^ 1 << 8,
            6 => number.wrapping_add(1 << self.pick(&[32, 32, 48, 63])),
            7 => self.pick(&[0, 4_294_967_295, 4_294_967_296, u64::MAX]),
            8 => self.below(70),
            _ => self.next(),
        }
    }

    /// A length that a rule allows; at times one of a plain list, lest a rule hide what it lacks.
    pub fn length(&mut self, lengths: Lengths, plain: &[u64]) -> u64 {
        match lengths {
            _ if self.one_in(6) => self.pick(plain),
            Lengths::Any => self.pick(plain),
            Lengths::OneOf(list) => self.pick(list),
            Lengths::Between(low, high) if self.one_in(2) => low + self.below(high - low + 1),
            Lengths::Between(low, high) => self.pick(&[low, high]),
            Lengths::MultipleOf(unit) => unit * self.below(9),
            Lengths::AtLeast(low) => low + self.pick(&[0, 0, 1, 16, 33]),
        }
    }
}
