//! The packed map: one bit for each position, 1 on each byte of a traced instruction.

use crate::{Refusal, numbers};

/// How many words were written.
#[inline]
pub fn map_build(image: &[u8], marks: &[u8], words: &mut [u64]) -> Result<usize, Refusal> {
    numbers::map_build(image, marks, words).count()
}

/// Whether a position is code.
#[inline]
pub fn map_test(words: &[u64], length: u32, position: u32) -> Result<bool, Refusal> {
    let bit = numbers::map_test(words, length, position).count()?;
    Ok(bit == 1)
}

/// The code bytes of a stretch, which excludes its end.
#[inline]
pub fn map_count(words: &[u64], length: u32, begin: u32, end: u32) -> Result<usize, Refusal> {
    numbers::map_count(words, length, begin, end).count()
}

/// The first data byte at a position or after it; `length` where none is left.
#[inline]
pub fn map_first_data(words: &[u64], length: u32, position: u32) -> Result<u32, Refusal> {
    let first = numbers::map_first_data(words, length, position).count()?;
    Ok(first as u32)
}

/// Sets the bits of the instruction at a position that a step took up: how many.
#[inline]
pub fn map_update(
    image: &[u8],
    marks: &[u8],
    words: &mut [u64],
    position: u32,
) -> Result<usize, Refusal> {
    numbers::map_update(image, marks, words, position).count()
}
