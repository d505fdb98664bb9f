//! Pseudo-random numbers, the same for the same seed, and draws from them.

use std::ops::RangeInclusive;

/// The generator splitmix64.
pub struct Draw {
    state: u64,
}

impl Draw {
    pub fn new(seed: u64) -> Draw {
        Draw { state: seed }
    }

    pub fn bits(&mut self) -> u64 {
        self.state = self.state.wrapping_add(0x9e37_79b9_7f4a_7c15);
        let mut mixed = self.state;
        mixed = (mixed ^ (mixed >> 30)).wrapping_mul(0xbf58_476d_1ce4_e5b9);
        mixed = (mixed ^ (mixed >> 27)).wrapping_mul(0x94d0_49bb_1331_11eb);
        mixed ^ (mixed >> 31)
    }

    /// 0 to `count` - 1.
    pub fn below(&mut self, count: usize) -> usize {
        ((u128::from(self.bits()) * count as u128) >> 64) as usize
    }

    pub fn one_in(&mut self, count: usize) -> bool {
        self.below(count) == 0
    }

    pub fn one_of<T: Copy>(&mut self, list: &[T]) -> T {
        list[self.below(list.len())]
    }

    /// A number of the range, each equally likely.
    pub fn within(&mut self, range: RangeInclusive<i64>) -> i64 {
        let (least, most) = range.into_inner();
        least + self.below((most - least) as usize + 1) as i64
    }

    /// A number of the range, often a limit or its neighbour.
    pub fn good(&mut self, range: RangeInclusive<i64>) -> i64 {
        let (least, most) = (*range.start(), *range.end());
        if self.one_in(4) {
            self.one_of(&[least, most, (least + 1).min(most), (most - 1).max(least)])
        } else {
            self.within(range)
        }
    }

    /// A number of every size and sign alike, often 0, 1, -1, a power of two or its neighbour, or the type's limit.
    pub fn any(&mut self) -> i64 {
        let power = 1_i64 << self.below(63);
        match self.below(4) {
            0 => self.one_of(&[0, 1, -1, i64::MIN, i64::MAX]),
            1 => power + self.within(-1..=1),
            2 => -power + self.within(-1..=1),
            _ => (self.bits() as i64) >> self.below(64),
        }
    }

    /// A number whose low 32 bits are those of a number of the range, and which is mostly not of the range.
    fn good_in_32_bits(&mut self, range: RangeInclusive<i64>) -> i64 {
        let any = self.bits() as i64;
        let above = self.one_of(&[1, -1, any]);
        self.good(range).wrapping_add(above << 32)
    }

    /// A number that is mostly not of the range: just beyond, farther beyond, the same in its low 32 bits, or any.
    pub fn wrong(&mut self, range: RangeInclusive<i64>) -> i64 {
        let (least, most) = (*range.start(), *range.end());
        let far = self.within(2..=1_000_000);
        match self.below(6) {
            0 => least - 1,
            1 => most + 1,
            2 => least - far,
            3 => most + far,
            4 => self.good_in_32_bits(range),
            _ => self.any(),
        }
    }

    /// A length that is mostly not `exact`.
    pub fn wrong_length(&mut self, exact: usize) -> usize {
        let far = self.below(2 * exact + 10);
        self.one_of(&[0, exact.saturating_sub(1), exact + 1, 2 * exact, far])
    }

    pub fn bytes(&mut self, length: usize) -> Vec<u8> {
        (0..length).map(|_| self.bits() as u8).collect()
    }
}
