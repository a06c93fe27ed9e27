//! Seeded random numbers.

use crate::paper::Kind;
use crate::values::{self, BASES};
use std::ops::RangeInclusive;

/// A small generator (SplitMix64): the same numbers from the same seed, anywhere.
pub struct Random(pub u64);

impl Random {
    pub fn any(&mut self) -> u64 {
        self.0 = self.0.wrapping_add(0x9E37_79B9_7F4A_7C15);
        let mut mixed = self.0;
        mixed = (mixed ^ (mixed >> 30)).wrapping_mul(0xBF58_476D_1CE4_E5B9);
        mixed = (mixed ^ (mixed >> 27)).wrapping_mul(0x94D0_49BB_1331_11EB);
        mixed ^ (mixed >> 31)
    }

    /// A number below `end`.
    pub fn below(&mut self, end: u64) -> u64 {
        self.any() % end
    }

    pub fn pick<T: Copy>(&mut self, list: &[T]) -> T {
        list[self.below(list.len() as u64) as usize]
    }

    /// Three numbers: for each operand one of the usual range, one at a limit or a wild one. Past the
    /// operands the numbers are wild: no call is to look at them.
    pub fn numbers(
        &mut self,
        kinds: &[Kind],
        usual: impl Fn(Kind) -> RangeInclusive<i32>,
    ) -> [i32; 3] {
        std::array::from_fn(|index| match kinds.get(index) {
            Some(kind) if self.below(8) > 0 => self.within(usual(*kind)),
            Some(kind) if self.below(2) > 0 => self.pick(&values::fields(*kind)),
            _ => self.wild(),
        })
    }

    fn within(&mut self, range: RangeInclusive<i32>) -> i32 {
        let (low, high) = (i64::from(*range.start()), i64::from(*range.end()));
        let span = (high - low).max(0) as u64 + 1;
        (low + self.below(span) as i64) as i32
    }

    /// Any number, of any length.
    fn wild(&mut self) -> i32 {
        self.any() as i32 >> self.below(32)
    }

    /// Mostly a base that is taken.
    pub fn base(&mut self) -> u32 {
        match self.below(8) {
            0 => self.wild() as u32,
            1 => self.pick(&BASES),
            _ => self.below(65_537) as u32,
        }
    }
}
