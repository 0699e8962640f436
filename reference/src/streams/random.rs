//! A small generator of random numbers, the same on every machine (splitmix64).

use std::ops::RangeInclusive;

/// The generator's state.
#[derive(Clone, Debug)]
pub struct Random(u64);

impl Random {
    /// A generator whose numbers depend on the seed alone.
    #[must_use]
    pub const fn new(seed: u64) -> Self {
        Self(seed)
    }

    /// Any number.
    pub const fn draw(&mut self) -> u64 {
        self.0 = self.0.wrapping_add(0x9E37_79B9_7F4A_7C15);
        let mixed = (self.0 ^ (self.0 >> 30)).wrapping_mul(0xBF58_476D_1CE4_E5B9);
        let mixed = (mixed ^ (mixed >> 27)).wrapping_mul(0x94D0_49BB_1331_11EB);
        mixed ^ (mixed >> 31)
    }

    /// A number below `bound`, which is not 0.
    pub fn below(&mut self, bound: usize) -> usize {
        let product = u128::from(self.draw()) * bound as u128;
        (product >> 64) as usize
    }

    /// A number in the range.
    pub fn within(&mut self, range: RangeInclusive<usize>) -> usize {
        let (least, greatest) = range.into_inner();
        least + self.below(greatest - least + 1)
    }

    /// Any byte.
    pub const fn byte(&mut self) -> u8 {
        (self.draw() >> 56) as u8
    }

    /// A byte in the range.
    pub fn byte_within(&mut self, range: RangeInclusive<u8>) -> u8 {
        let (least, greatest) = range.into_inner();
        least + self.below(usize::from(greatest - least) + 1) as u8
    }

    /// True once in `times`.
    pub fn one_in(&mut self, times: usize) -> bool {
        self.below(times) == 0
    }

    /// One of the items, of which there is at least one.
    pub fn pick<T: Copy>(&mut self, items: &[T]) -> T {
        items[self.below(items.len())]
    }
}

#[cfg(test)]
mod tests {
    use super::Random;

    #[test]
    fn splitmix_as_published() {
        let mut random = Random::new(1_234_567);
        assert_eq!(random.draw(), 6_457_827_717_110_365_317);
        assert_eq!(random.draw(), 3_203_168_211_198_807_973);
    }

    #[test]
    fn draws_stay_in_range_and_reach_its_ends() {
        let mut random = Random::new(0);
        let draws: Vec<u8> = (0..1000).map(|_| random.byte_within(32..=35)).collect();
        assert_eq!(draws.iter().min(), Some(&32));
        assert_eq!(draws.iter().max(), Some(&35));
    }
}
