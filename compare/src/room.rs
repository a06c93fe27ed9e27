//! The room that encode writes into, with guards on both sides of the part that is lent.

use std::fmt;

const GUARD: usize = 4;
/// The longest part that is lent.
pub const LONGEST: usize = 8;

#[derive(Clone, PartialEq)]
pub struct Room([u8; LONGEST + 2 * GUARD]);

impl Room {
    /// Other contents at each turn, so that no wrong write can hide behind an equal byte for long.
    pub fn filled(turn: u64) -> Room {
        let mixed = turn.wrapping_mul(0x9E37_79B9_7F4A_7C15).to_be_bytes();
        Room(std::array::from_fn(|at| {
            mixed[at % 4] ^ (at as u8).wrapping_mul(59)
        }))
    }

    pub fn lent(&mut self, length: usize) -> &mut [u8] {
        &mut self.0[GUARD..GUARD + length]
    }

    /// The room once the bytes stand at the beginning of its lent part.
    pub fn with(mut self, bytes: &[u8]) -> Room {
        self.lent(bytes.len()).copy_from_slice(bytes);
        self
    }
}

impl fmt::Debug for Room {
    fn fmt(&self, f: &mut fmt::Formatter) -> fmt::Result {
        let (before, rest) = self.0.split_at(GUARD);
        let (lent, after) = rest.split_at(LONGEST);
        write!(f, "{before:02X?} {lent:02X?} {after:02X?}")
    }
}
