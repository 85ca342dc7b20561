//! A small random generator (SplitMix64). The same seed gives the same numbers.

use std::ops::RangeInclusive;

/// What a lent buffer holds.
pub trait Item: Copy + PartialEq {
    /// The low bits of a number.
    fn low_bits(number: u64) -> Self;
}

impl Item for u8 {
    fn low_bits(number: u64) -> Self {
        number as Self
    }
}

impl Item for u16 {
    fn low_bits(number: u64) -> Self {
        number as Self
    }
}

impl Item for u64 {
    fn low_bits(number: u64) -> Self {
        number
    }
}

/// A seeded random generator.
pub struct Rng(u64);

impl Rng {
    /// A generator with this seed.
    pub fn new(seed: u64) -> Self {
        Self(seed)
    }

    /// Any number.
    pub fn number(&mut self) -> u64 {
        self.0 = self.0.wrapping_add(0x9E37_79B9_7F4A_7C15);
        let mut z = self.0;
        z = (z ^ (z >> 30)).wrapping_mul(0xBF58_476D_1CE4_E5B9);
        z = (z ^ (z >> 27)).wrapping_mul(0x94D0_49BB_1331_11EB);
        z ^ (z >> 31)
    }

    /// A number of a range that is not empty.
    pub fn within(&mut self, range: RangeInclusive<usize>) -> usize {
        let count = (range.end() - range.start()) as u64 + 1;
        range.start() + (self.number() % count) as usize
    }

    /// A number below `bound`, which is not 0.
    pub fn below(&mut self, bound: usize) -> usize {
        self.within(0..=bound - 1)
    }

    /// Two different numbers below `bound`, which is at least 2, the lower first.
    pub fn two_below(&mut self, bound: usize) -> (usize, usize) {
        let high = self.within(1..=bound - 1);
        (self.below(high), high)
    }

    /// One of the items of a list that is not empty.
    pub fn choose<T: Copy>(&mut self, items: &[T]) -> T {
        items[self.below(items.len())]
    }

    /// A byte that is not 0.
    pub fn nonzero_byte(&mut self) -> u8 {
        self.within(1..=255) as u8
    }

    /// Random bytes.
    pub fn bytes(&mut self, length: usize) -> Vec<u8> {
        let mut bytes = vec![0; length];
        for chunk in bytes.chunks_mut(8) {
            chunk.copy_from_slice(&self.number().to_le_bytes()[..chunk.len()]);
        }
        bytes
    }

    /// Random items of a buffer.
    pub fn items<T: Item>(&mut self, length: usize) -> Vec<T> {
        (0..length).map(|_| T::low_bits(self.number())).collect()
    }

    /// The items in another order; each order is as likely as any other.
    pub fn shuffled<T: Clone>(&mut self, items: &[T]) -> Vec<T> {
        let mut items = items.to_vec();
        for last in (1..items.len()).rev() {
            items.swap(last, self.below(last + 1));
        }
        items
    }

    /// Random numbers.
    pub fn numbers<const N: usize>(&mut self) -> [u64; N] {
        std::array::from_fn(|_| self.number())
    }
}
