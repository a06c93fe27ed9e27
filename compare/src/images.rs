//! Images to trace and entries to trace them from.

use crate::original;
use crate::random::Random;

/// Bytes that begin an instruction of each flow, or stand well within one.
pub const TELLING: [u8; 22] = [
    0x00, 0x01, 0x02, 0x08, 0x10, 0x11, 0x20, 0x21, 0x22, 0x28, 0x34, 0x48, 0x64, 0x80, 0x81, 0xA0,
    0xB8, 0x0D, 0xFC, 0xFD, 0xFE, 0xFF,
];

/// The exception's own bytes and what leads around them.
pub const FLASH: [u8; 8] = [0xB8, 0x0D, 0x21, 0x00, 0x02, 0x01, 0x80, 0xA0];

/// How images are made by chance.
#[derive(Clone, Copy)]
pub enum Kind {
    Uniform,
    /// No instruction is cut off: the last bytes are Ret.
    Closed,
    /// Mostly branches that stay near.
    Branching,
    /// Rich in B8 0D 21.
    Flashing,
    /// Whole instructions of all forms, most of which go on.
    Plain,
}

pub const KINDS: [Kind; 5] = [
    Kind::Uniform,
    Kind::Closed,
    Kind::Branching,
    Kind::Flashing,
    Kind::Plain,
];

pub fn image(kind: Kind, length: usize, random: &mut Random) -> Vec<u8> {
    let mut image = vec![];
    while image.len() < length {
        match kind {
            Kind::Uniform | Kind::Closed => image.push(random.any() as u8),
            Kind::Branching => branch(&mut image, random),
            Kind::Flashing => flash(&mut image, length, random),
            Kind::Plain => plain(&mut image, random),
        }
    }
    image.truncate(length);
    if matches!(kind, Kind::Closed | Kind::Plain) {
        let end = length.saturating_sub(2);
        image[end..].fill(0xA0);
    }
    image
}

/// Every image of some length over an alphabet.
pub fn strings(alphabet: &[u8], length: u32) -> impl Iterator<Item = Vec<u8>> {
    let count = alphabet.len();
    (0..count.pow(length)).map(move |number| {
        let mut rest = number;
        let mut digit = || {
            let letter = alphabet[rest % count];
            rest /= count;
            letter
        };
        (0..length).map(|_| digit()).collect()
    })
}

/// Whether the bytes of the exception stand anywhere in it.
pub fn has_flash(image: &[u8]) -> bool {
    image.windows(3).any(|bytes| bytes == [0xB8, 0x0D, 0x21])
}

/// A short branch of any form, or something else.
fn branch(image: &mut Vec<u8>, random: &mut Random) {
    let first = random.pick(&[
        0x01, 0x80, 0x90, 0x31, 0x42, 0x54, 0x58, 0x6C, 0x99, 0x64, 0xA0,
    ]);
    let size = original::size(original::form(first));
    image.push(first);
    if size == 3 {
        image.push(random.any() as u8);
    }
    if size > 1 {
        image.push((random.below(24) as i64 - 10) as u8);
    }
}

/// The two instructions of the exception, whole or in part, with an address in the image.
fn flash(image: &mut Vec<u8>, length: usize, random: &mut Random) {
    let address = random.below(length as u64 + 2).to_be_bytes();
    let jump = [0x21, address[6], address[7]];
    match random.below(8) {
        0..3 => image.extend([&[0xB8, 0x0D][..], &jump].concat()),
        3 => image.extend(jump),
        4 => image.extend([0xB8, 0x0D]),
        5 => image.extend([0x80, random.below(12) as u8]),
        6 => image.push(random.pick(&FLASH)),
        _ => image.push(random.any() as u8),
    }
}

fn plain(image: &mut Vec<u8>, random: &mut Random) {
    let first = random.any() as u8;
    image.push(first);
    for _ in 1..original::size(original::form(first)) {
        image.push(random.any() as u8);
    }
    if random.below(4) > 0 {
        image.push(random.pick(&[0x00, 0x64, 0x75, 0x30, 0xC0]));
    }
}

/// Some entries: inside, at the ends, repeated, outside.
pub fn entries(length: usize, random: &mut Random) -> Vec<u32> {
    let count = random.pick(&[0, 1, 1, 1, 1, 2, 2, 3, 4, 7]);
    let mut entries: Vec<u32> = vec![];
    for _ in 0..count {
        let entry = match random.below(12) {
            0..6 => random.below(length.max(1) as u64) as u32,
            6 => 0,
            7 => length as u32,
            8 => (length as u32).wrapping_sub(1 + random.below(3) as u32),
            9 => random.pick(&[65_535, 65_536, u32::MAX]),
            10 => entries.first().copied().unwrap_or(0),
            _ => random.below(16) as u32,
        };
        entries.push(entry);
    }
    entries
}

/// Some pins: on entries, on positions that are taken up without them, beside these, two before a Jmpf after B8 0D, inside, at the ends,
/// repeated, outside; now and then all positions.
pub fn pins(image: &[u8], entries: &[u32], noted: &[u32], random: &mut Random) -> Vec<u32> {
    if random.below(16) == 0 {
        return (0..image.len() as u32).collect();
    }
    let flashing = |at: &usize| image[*at..].starts_with(&[0xB8, 0x0D, 0x21]);
    let flashes: Vec<u32> = (0..image.len())
        .filter(flashing)
        .map(|at| at as u32)
        .collect();
    let mut pins: Vec<u32> = vec![];
    for _ in 0..1 + random.below(4) {
        let mut from = |list: &[u32]| match list {
            [] => 0,
            _ => random.pick(list),
        };
        let (entry, taken, flash) = (from(entries), from(noted), from(&flashes));
        let pin = match random.below(8) {
            0 => entry,
            1 | 2 => taken,
            3 => taken.wrapping_add(1),
            4 => flash,
            5 => random.below(image.len().max(1) as u64) as u32,
            6 => image.len() as u32,
            _ => pins.first().copied().unwrap_or(u32::MAX),
        };
        pins.push(pin);
    }
    pins
}
