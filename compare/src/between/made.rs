//! Images rich in B8 0D 21, with entries and pins on it and around it.

use super::Given;
use crate::rings;
use compare::images::{self, Kind};
use compare::paper::Mode;
use compare::paper::reached::{Follow, reached};
use compare::random::Random;

/// Of so many images the first leads over the end of memory, some are long, and some of ten bytes. The others are short.
const TURNS: u64 = 256;
const LONG_TURNS: u64 = 4;
const TEN_TURNS: u64 = 36;
/// Long ones have up to 70 bytes fewer than one of these, short ones up to so many.
const LONG: [usize; 3] = [1_000, 3_000, 8_000];
const SHORT: u64 = 40;
/// In a long image one B8 0D 21 more is planted for so many bytes.
const APART: usize = 40;
const FLASH: [u8; 3] = [0xB8, 0x0D, 0x21];
const KINDS: [Kind; 6] = [
    Kind::Uniform,
    Kind::Closed,
    Kind::Branching,
    Kind::Plain,
    Kind::Flashing,
    Kind::Flashing,
];
/// What may stand around B8 0D 21: its own bytes, a Br and a Bz, which F9 leads back, and what ends or goes on.
const AROUND: [u8; 8] = [0xB8, 0x0D, 0x21, 0x00, 0x01, 0x80, 0xF9, 0xA0];

pub fn given(random: &mut Random, turn: u64) -> Given {
    let mode = random.pick(&[Mode::Unwrapped, Mode::Wrapping]);
    let image = image(random, turn % TURNS);
    let flashes = flashes(&image);
    let entries = entries(random, &image, &flashes);
    let mut given = Given {
        mode,
        image,
        entries,
        pins: vec![],
    };
    if random.below(2) == 0 {
        given.pins = pins(random, &given, &flashes);
    }
    given
}

fn image(random: &mut Random, turn: u64) -> Vec<u8> {
    match turn {
        0 => ring(random),
        1..LONG_TURNS => {
            let length = random.pick(&LONG) - random.below(71) as usize;
            planted(random, length, length / APART)
        }
        LONG_TURNS..TEN_TURNS => ten(random),
        _ => {
            let length = random.below(SHORT + 1) as usize;
            let times = 1 + random.below(4) as usize;
            planted(random, length, times)
        }
    }
}

/// Of any kind, with B8 0D 21 planted anywhere.
fn planted(random: &mut Random, length: usize, times: usize) -> Vec<u8> {
    let mut image = images::image(random.pick(&KINDS), length, random);
    for _ in 0..times {
        let [at, to] = [0, 1].map(|_| random.below(length.max(1) as u64) as u32);
        plant(&mut image, at, to);
    }
    image
}

/// An image with code at both ends of memory, and B8 0D 21 planted there.
fn ring(random: &mut Random) -> Vec<u8> {
    let (mut image, _) = rings::image(random);
    for _ in 0..1 + random.below(6) {
        let [at, to] = [0, 1].map(|_| rings::position(random, image.len()));
        plant(&mut image, at, to);
    }
    image
}

/// B8 0D 21 to a position of ten bytes, with any bytes around it that matter.
fn ten(random: &mut Random) -> Vec<u8> {
    let to = random.below(10) as u8;
    let [a, b, c, d, last] = [0; 5].map(|_| random.pick(&AROUND));
    vec![a, b, 0xB8, 0x0D, 0x21, 0x00, to, c, d, last]
}

/// A Jmpf after B8 0D to an address, as much of it as there is room for.
fn plant(image: &mut [u8], at: u32, to: u32) {
    let address = [(to >> 8) as u8, to as u8];
    let bytes = FLASH.into_iter().chain(address);
    let places = image.iter_mut().skip(at as usize);
    places.zip(bytes).for_each(|(place, byte)| *place = byte);
}

/// The positions of B8 0D 21.
fn flashes(image: &[u8]) -> Vec<u32> {
    let found = (0..).zip(image.windows(3));
    let found = found.filter(|(_, bytes)| *bytes == FLASH);
    found.map(|(at, _)| at).collect()
}

/// Some of the positions of B8 0D 21, and of the Jmpf in it.
fn on_flash(random: &mut Random, flashes: &[u32], most: u64) -> Vec<u32> {
    if flashes.is_empty() {
        return vec![];
    }
    let count = random.below(most + 1);
    let one = |_| random.pick(flashes) + random.pick(&[0, 2]);
    (0..count).map(one).collect()
}

/// As of the other comparisons, and some on B8 0D 21, in any order.
fn entries(random: &mut Random, image: &[u8], flashes: &[u32]) -> Vec<u32> {
    let mut entries = images::entries(image.len(), random);
    entries.extend(on_flash(random, flashes, 4));
    for end in (1..entries.len()).rev() {
        entries.swap(end, random.below(end as u64 + 1) as usize);
    }
    entries
}

fn pins(random: &mut Random, given: &Given, flashes: &[u32]) -> Vec<u32> {
    let (mode, image, entries) = (given.mode, &given.image, &given.entries);
    let noted = reached(mode, image, entries, &[], Follow::All);
    let noted = super::places(image.len(), |at| noted[at]);
    let mut pins = images::pins(image, entries, &noted, random);
    pins.extend(on_flash(random, flashes, 2));
    pins
}
