//! Document 02's two modes, W7: what becomes of a short branch, and of next, at the ends of memory.

/// The positions of memory.
const MEMORY: i64 = pottagewing::HIGHEST_ADDRESS as i64 + 1;

#[derive(Clone, Copy, PartialEq, Eq, Debug)]
pub enum Mode {
    /// Document 01's: what leaves memory lies outside.
    Unwrapped,
    /// To the 16-bit program counter.
    Wrapping,
}

impl Mode {
    /// A short branch's address, or next, as a target.
    pub fn target(self, number: i64) -> i64 {
        match self {
            Mode::Unwrapped => number,
            Mode::Wrapping => number.rem_euclid(MEMORY),
        }
    }

    /// A short branch's address less the base: in wrapping mode from -32,768 to 32,767.
    pub fn difference(self, number: i64) -> i64 {
        match self {
            Mode::Unwrapped => number,
            Mode::Wrapping => (number + MEMORY / 2).rem_euclid(MEMORY) - MEMORY / 2,
        }
    }
}
