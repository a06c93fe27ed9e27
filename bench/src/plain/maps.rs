//! The packed map, and what is asked of it, over the byte mask.

use super::forms::FORMS;
use super::trace::is_traced;

/// 1 for each byte of a traced instruction, bit 0 of the first word for the first.
pub fn build(image: &[u8], marks: &[u8], words: &mut Vec<u64>) {
    words.clear();
    words.resize(image.len().div_ceil(64), 0);
    for (at, mark) in marks.iter().enumerate() {
        if is_traced(*mark) {
            set(words, at, FORMS[image[at] as usize].size as usize);
        }
    }
}

/// So many bits from a position on.
pub fn set(words: &mut [u64], at: usize, count: usize) {
    for covered in at..at + count {
        words[covered / 64] |= 1 << (covered % 64);
    }
}

/// How many bytes are code.
pub fn count(mask: &[u8]) -> u32 {
    mask.iter().map(|byte| u32::from(*byte)).sum()
}

/// The first byte that is data, or the length where there is none.
pub fn first_data(mask: &[u8]) -> usize {
    let found = mask.iter().position(|byte| *byte == 0);
    found.unwrap_or(mask.len())
}
