//! The input of the listing program, which is a part of the report's too.

use super::digits::DIGITS;
use pottagewing::{MOST_BYTES, MOST_ENTRIES, MOST_IN_LINE};

#[derive(Default)]
pub struct Input {
    pub entries: Vec<u32>,
    pub image: Vec<u8>,
}

impl Input {
    pub fn clear(&mut self) {
        self.entries.clear();
        self.image.clear();
    }

    /// A whole text, or the first bad line, counted from 1.
    pub fn read(&mut self, text: &[u8]) -> Result<(), usize> {
        self.clear();
        // After the last byte 10 there is no line.
        let lines = text.strip_suffix(b"\n").unwrap_or(text);
        let mut lines = lines.split(|byte| *byte == b'\n').enumerate();
        if let Some((_, first)) = lines.next()
            && !first.is_empty()
            && !self.read_entries(first)
        {
            return Err(1);
        }
        match lines.find(|(_, line)| !self.read_bytes(line)) {
            Some((index, _)) => Err(index + 1),
            None => Ok(()),
        }
    }

    /// A line of one entry or more.
    pub fn read_entries(&mut self, line: &[u8]) -> bool {
        for field in line.split(|byte| *byte == b'\t') {
            let &[a, b, c, d] = field else {
                return false;
            };
            let digits = [a, b, c, d].map(|digit| DIGITS[digit as usize]);
            if digits.contains(&255) || self.entries.len() == MOST_ENTRIES {
                return false;
            }
            let entry = digits
                .iter()
                .fold(0, |sum, digit| sum << 4 | u32::from(*digit));
            self.entries.push(entry);
        }
        true
    }

    /// A line of one byte or more.
    pub fn read_bytes(&mut self, line: &[u8]) -> bool {
        let count = line.len() / 2;
        if line.len() % 2 == 1 || !(1..=MOST_IN_LINE).contains(&count) {
            return false;
        }
        if self.image.len() + count > MOST_BYTES {
            return false;
        }
        for pair in line.chunks_exact(2) {
            let (high, low) = (DIGITS[pair[0] as usize], DIGITS[pair[1] as usize]);
            if high | low == 255 {
                return false;
            }
            self.image.push(high << 4 | low);
        }
        true
    }
}
