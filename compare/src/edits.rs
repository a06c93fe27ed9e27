//! Changes of a text by chance, whatever it is: bytes, stretches and lines.

use compare::random::Random;

const DIGITS: &[u8] = b"0123456789ABCDEF";
/// How long the stretches are that are doubled or removed: a byte, one in digits, a field with its tab.
const STRETCHES: [usize; 8] = [1, 1, 1, 1, 2, 2, 3, 5];

/// Any place, or none in an empty text.
pub fn place(random: &mut Random, text: &[u8]) -> Option<usize> {
    (!text.is_empty()).then(|| random.below(text.len() as u64) as usize)
}

/// One of these bytes in the place of another.
pub fn byte(random: &mut Random, text: &mut [u8], telling: &[u8]) {
    if let Some(at) = place(random, text) {
        text[at] = random.pick(telling);
    }
}

/// One of these bytes more, one time in two at the end of a line.
pub fn one_more(random: &mut Random, text: &mut Vec<u8>, telling: &[u8]) {
    let mut at = random.below(text.len() as u64 + 1) as usize;
    if random.below(2) == 0 {
        let end = text[at..].iter().position(|byte| *byte == b'\n');
        at += end.unwrap_or(0);
    }
    text.insert(at, random.pick(telling));
}

/// Another digit in the place of one: the form of the line stays.
pub fn digit(random: &mut Random, text: &mut [u8]) {
    let from = place(random, text).unwrap_or(0);
    let found = text[from..].iter().position(|byte| DIGITS.contains(byte));
    if let Some(after) = found {
        text[from + after] = random.pick(DIGITS);
    }
}

pub fn remove(random: &mut Random, text: &mut Vec<u8>) {
    if let Some(at) = place(random, text) {
        let end = text.len().min(at + random.pick(&STRETCHES));
        text.drain(at..end);
    }
}

pub fn double(random: &mut Random, text: &mut Vec<u8>) {
    if let Some(at) = place(random, text) {
        let end = text.len().min(at + random.pick(&STRETCHES));
        let stretch = text[at..end].to_vec();
        text.splice(at..at, stretch);
    }
}

/// The end is lost.
pub fn cut(random: &mut Random, text: &mut Vec<u8>) {
    let end = random.below(text.len() as u64 + 1) as usize;
    text.truncate(end);
}

pub fn split(text: &[u8]) -> Vec<&[u8]> {
    text.split_inclusive(|byte| *byte == b'\n').collect()
}

/// A line removed or doubled, or two of them swapped.
pub fn lines(random: &mut Random, text: &mut Vec<u8>) {
    let mut lines = split(text);
    if lines.is_empty() {
        return;
    }
    let count = lines.len() as u64;
    let at = random.below(count) as usize;
    match random.below(4) {
        0 => {
            lines.remove(at);
        }
        1 => lines.insert(at, lines[at]),
        2 => lines.swap(at, (at + 1) % count as usize),
        _ => lines.swap(at, random.below(count) as usize),
    }
    *text = lines.concat();
}
