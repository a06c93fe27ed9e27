//! Inputs of the listing program by chance: good ones, spoiled ones, bytes in no order, and those at its limits.

use crate::edits;
use compare::images::{self, KINDS};
use compare::paper::input::{MOST_BYTES, MOST_ENTRIES, MOST_IN_LINE};
use compare::random::Random;

/// Bytes that matter in an input, right ones and wrong ones, the neighbours of digits among them.
const TELLING: &[u8] = b"0123456789ABCDEF\t\t\n\n\r \0/:@G`agf\x7F\xFF";
/// Bytes of which a text in no order is good at times.
const LOOSE: &[u8] = b"000000018A\t\n\n";

/// What the positions of the largest listing known have, and how it ends.
const LARGEST: (u8, [u8; 2]) = (0x44, [0x54, 0x94]);

pub fn good(random: &mut Random) -> Vec<u8> {
    let length = match random.below(64) {
        0 => random.below(2_000),
        1..8 => random.below(200),
        _ => random.below(40),
    };
    let image = images::image(random.pick(&KINDS), length as usize, random);
    let mut entries = images::entries(image.len(), random);
    if random.below(32) == 0 {
        let count = random.below(MOST_ENTRIES as u64) as usize;
        entries.resize_with(count, || random.below(length + 4) as u32);
    }
    let width = match random.below(4) {
        0 => 1,
        1 => MOST_IN_LINE,
        _ => 1 + random.below(MOST_IN_LINE as u64) as usize,
    };
    written(random, &entries, &image, width)
}

/// So many bytes on a line, and on one time in four the last byte 10 is left out.
fn written(random: &mut Random, entries: &[u32], image: &[u8], width: usize) -> Vec<u8> {
    let entries: Vec<String> = entries
        .iter()
        .map(|entry| format!("{:04X}", *entry as u16))
        .collect();
    let mut text = entries.join("\t") + "\n";
    for line in image.chunks(width) {
        line.iter().for_each(|byte| text += &format!("{byte:02X}"));
        text.push('\n');
    }
    if random.below(4) == 0 {
        text.pop();
    }
    text.into_bytes()
}

/// A good one with a change, seldom with two or three.
pub fn spoiled(random: &mut Random) -> Vec<u8> {
    let mut text = good(random);
    for _ in 0..random.pick(&[1, 1, 1, 1, 2, 3]) {
        match random.below(16) {
            0..3 => edits::byte(random, &mut text, TELLING),
            3 | 4 => edits::one_more(random, &mut text, TELLING),
            5 => edits::digit(random, &mut text),
            6 => edits::remove(random, &mut text),
            7 => edits::double(random, &mut text),
            8 => edits::cut(random, &mut text),
            9 | 10 => edits::lines(random, &mut text),
            11 => text.make_ascii_lowercase(),
            12 => blank_line(random, &mut text),
            13 => joined(random, &mut text),
            14 => text.insert(0, b'\n'),
            _ => text.push(random.pick(TELLING)),
        }
    }
    text
}

fn blank_line(random: &mut Random, text: &mut Vec<u8>) {
    let mut lines = edits::split(text);
    let at = random.below(lines.len() as u64 + 1) as usize;
    lines.insert(at, b"\n");
    *text = lines.concat();
}

/// Two lines become one, or their bytes are parted by something else.
fn joined(random: &mut Random, text: &mut Vec<u8>) {
    let from = edits::place(random, text).unwrap_or(0);
    let Some(after) = text[from..].iter().position(|byte| *byte == b'\n') else {
        return;
    };
    match random.below(2) {
        0 => text[from + after] = random.pick(b"\t\r 0"),
        _ => drop(text.remove(from + after)),
    }
}

/// A few bytes in no order.
pub fn loose(random: &mut Random) -> Vec<u8> {
    let length = random.below(24);
    let bytes = random.pick(&[LOOSE, TELLING]);
    (0..length).map(|_| random.pick(bytes)).collect()
}

/// At each limit, on one side of it and on the other: entries, bytes on a line and in all.
pub fn at_limits(random: &mut Random) -> Vec<u8> {
    let length = MOST_BYTES + random.pick(&[0, 0, 0, 0, 1, 2, 6_000]) - random.below(2) as usize;
    let count = MOST_ENTRIES + 1 - random.pick(&[0, 1, 1, 1, 2]);
    let width = random.pick(&[1, 1, 1, MOST_IN_LINE - 1, MOST_IN_LINE, MOST_IN_LINE + 1]);
    let image = match random.below(KINDS.len() as u64 + 1) as usize {
        0 => largest(length),
        kind => images::image(KINDS[kind - 1], length, random),
    };
    let mut entries: Vec<u32> = vec![0, 1, 2];
    entries.resize_with(count, || random.below(length as u64 + 4) as u32);
    let mut text = written(random, &entries, &image, width);
    if random.below(8) == 0 {
        text.push(random.pick(b"\n0"));
    }
    text
}

fn largest(length: usize) -> Vec<u8> {
    let (byte, end) = LARGEST;
    let mut image = vec![byte; length];
    image[length - end.len()..].copy_from_slice(&end);
    image
}
