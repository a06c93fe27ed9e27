//! Document 01's input of the listing program, written out a second time and plainly.

pub use pottagewing::{MOST_BYTES, MOST_ENTRIES, MOST_IN_LINE};

pub struct Input {
    pub entries: Vec<u32>,
    pub image: Vec<u8>,
}

/// The entries and the image, or the first bad line, counted from 1.
pub fn parse(text: &[u8]) -> Result<Input, usize> {
    let mut input = Input {
        entries: vec![],
        image: vec![],
    };
    for (index, line) in lines(text).into_iter().enumerate() {
        let taken = match index {
            0 => entries(line).map(|list| input.entries = list),
            _ => bytes(line, MOST_IN_LINE).map(|list| input.image.extend(list)),
        };
        if taken.is_none() || input.image.len() > MOST_BYTES {
            return Err(index + 1);
        }
    }
    Ok(input)
}

/// After the last byte 10 there is no further line.
pub(super) fn lines(text: &[u8]) -> Vec<&[u8]> {
    let mut lines: Vec<&[u8]> = text.split(|byte| *byte == b'\n').collect();
    if lines.last().is_some_and(|line| line.is_empty()) {
        lines.pop();
    }
    lines
}

fn entries(line: &[u8]) -> Option<Vec<u32>> {
    if line.is_empty() {
        return Some(vec![]);
    }
    let list: Option<Vec<u32>> = line.split(|byte| *byte == b'\t').map(position).collect();
    list.filter(|list| list.len() <= MOST_ENTRIES)
}

/// A position in four digits.
pub(super) fn position(field: &[u8]) -> Option<u32> {
    (field.len() == 4).then(|| number(field)).flatten()
}

/// One byte or more, of two digits each.
pub(super) fn bytes(line: &[u8], most: usize) -> Option<Vec<u8>> {
    let byte = |pair: &[u8]| (pair.len() == 2).then(|| number(pair)).flatten();
    let list: Option<Vec<u8>> = line.chunks(2).map(|pair| Some(byte(pair)? as u8)).collect();
    list.filter(|list| (1..=most).contains(&list.len()))
}

/// A number in upper-case hex digits.
fn number(digits: &[u8]) -> Option<u32> {
    digits.iter().try_fold(0, |value, digit| {
        let digit = match digit {
            b'0'..=b'9' => digit - b'0',
            b'A'..=b'F' => digit - b'A' + 10,
            _ => return None,
        };
        Some(value * 16 + u32::from(digit))
    })
}
