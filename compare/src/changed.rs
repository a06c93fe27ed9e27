//! Listings changed by chance, as a hand or a bad copy would: most are bad then, some are still good.

use crate::edits;
use compare::paper::{Mode, flow, listing};
use compare::random::Random;

/// Bytes that matter in a listing, right ones and wrong ones.
const TELLING: &[u8] = b"0123456789ABCDEFLOAID#@R?acdefilo\t\t\n\n\r \0\0\x7F\xFF";
/// The highest position.
const HIGHEST: usize = pottagewing::HIGHEST_ADDRESS as usize;

/// The text with a change, seldom with two or three. What is put in is listed in this mode.
pub fn text(mode: Mode, random: &mut Random, image: &[u8], text: &[u8]) -> Vec<u8> {
    let mut text = text.to_vec();
    for _ in 0..random.pick(&[1, 1, 1, 1, 2, 3]) {
        match random.below(16) {
            0 | 1 => edits::byte(random, &mut text, TELLING),
            2 => edits::one_more(random, &mut text, TELLING),
            3 | 4 => edits::digit(random, &mut text),
            5 => edits::remove(random, &mut text),
            6 => edits::double(random, &mut text),
            7 => letter(random, &mut text),
            8 => edits::cut(random, &mut text),
            9 => {
                text.pop();
            }
            10..14 => edits::lines(random, &mut text),
            _ => put_in(mode, random, image, &mut text),
        }
    }
    text
}

/// Another letter at the beginning of a line.
fn letter(random: &mut Random, text: &mut [u8]) {
    if let Some(at) = edits::place(random, text) {
        let before = text[..at].iter().rposition(|byte| *byte == b'\n');
        text[before.map_or(0, |end| end + 1)] = random.pick(b"LOAIDi\n");
    }
}

/// A line more, in its order or anywhere.
fn put_in(mode: Mode, random: &mut Random, image: &[u8], text: &mut Vec<u8>) {
    let (at, line) = made(mode, random, image);
    let mut lines = edits::split(text);
    let before = |known: &&[u8]| position(known).is_some_and(|known| known < at);
    let index = match random.below(8) {
        0 => random.below(lines.len() as u64 + 1) as usize,
        1..5 => lines.iter().take_while(|known| before(known)).count(),
        _ => {
            let not_after = |known: &&[u8]| before(known) || position(known) == Some(at);
            lines.iter().take_while(|known| not_after(known)).count()
        }
    };
    lines.insert(index, &line);
    *text = lines.concat();
}

/// The position of a line that has one.
fn position(line: &[u8]) -> Option<usize> {
    let digits = std::str::from_utf8(line.get(2..6)?).ok()?;
    usize::from_str_radix(digits, 16).ok()
}

/// A line of any letter and its position, which may lie at the image's end, at memory's or past them.
fn made(mode: Mode, random: &mut Random, image: &[u8]) -> (usize, Vec<u8>) {
    let length = image.len();
    let at = match random.below(8) {
        0..5 => random.below(length as u64 + 1) as usize,
        5 => (length + random.below(4) as usize).saturating_sub(3),
        6 => HIGHEST - random.below(3) as usize,
        _ => random.below(HIGHEST as u64 + 1) as usize,
    };
    let at = at.min(HIGHEST);
    let line = match random.below(8) {
        0 => format!("L\t{at:04X}\n"),
        1 | 2 => {
            let letter = random.pick(&['O', 'A']);
            let count = random.pick(&[0, 1, 1, 1, 2, 5]);
            let mut place = || format!("\t{:04X}", random.below(HIGHEST as u64 + 1));
            let places: String = (0..count).map(|_| place()).collect();
            format!("{letter}\t{at:04X}{places}\n")
        }
        3 | 4 => {
            let count = random.pick(&[0, 1, 1, 2, 3, 4, 15, 16, 16, 17]);
            let digits = bytes(random, image, at, count);
            let digits: String = digits.iter().map(|byte| format!("{byte:02X}")).collect();
            format!("D\t{at:04X}\t{digits}\n")
        }
        _ => {
            let bytes = bytes(random, image, at, 3);
            let whole = &bytes[..flow::size(bytes[0])];
            listing::instruction_line(mode, whole, at)
        }
    };
    (at, line.into_bytes())
}

/// The image's own bytes, zeros past its end; one time in two another among them.
fn bytes(random: &mut Random, image: &[u8], at: usize, count: usize) -> Vec<u8> {
    let own = (at..at + count).map(|at| image.get(at).copied().unwrap_or(0));
    let mut bytes: Vec<u8> = own.collect();
    if random.below(2) == 0
        && let Some(at) = edits::place(random, &bytes)
    {
        bytes[at] = random.any() as u8;
    }
    bytes
}
