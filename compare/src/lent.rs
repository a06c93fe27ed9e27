//! Lent memory with guards on both sides of the part that is lent.

use compare::random::Random;
use std::fmt;

const GUARD: usize = 4;
/// How much of it is shown.
const SHOWN: usize = 48;

#[derive(Clone, PartialEq)]
pub struct Lent<T>(Vec<T>);

impl<T: Copy> Lent<T> {
    /// Other contents at each turn, so that no wrong write can hide behind an equal value for long.
    pub fn filled(length: usize, random: &mut Random, value: impl Fn(u64) -> T) -> Lent<T> {
        let turn = random.any();
        let mix = |at: usize| {
            turn.rotate_left(at as u32 * 7)
                .wrapping_add(at as u64 * 0x9E37)
        };
        Lent((0..length + 2 * GUARD).map(|at| value(mix(at))).collect())
    }

    pub fn part(&self) -> &[T] {
        &self.0[GUARD..self.0.len() - GUARD]
    }

    /// The same once these stand at the beginning of the part, as many of them as it has room for.
    pub fn with(mut self, list: &[T]) -> Lent<T> {
        let part = self.lend();
        let count = list.len().min(part.len());
        part[..count].copy_from_slice(&list[..count]);
        self
    }

    pub fn lend(&mut self) -> &mut [T] {
        let end = self.0.len() - GUARD;
        &mut self.0[GUARD..end]
    }
}

impl<T: Copy + fmt::UpperHex> fmt::Debug for Lent<T> {
    fn fmt(&self, f: &mut fmt::Formatter) -> fmt::Result {
        for value in self.0.iter().take(SHOWN) {
            write!(f, "{value:X} ")?;
        }
        let more = self.0.len().saturating_sub(SHOWN);
        write!(f, "and {more} more")
    }
}
