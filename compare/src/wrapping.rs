//! Wrapping mode. The original does not have it: the plain side by document 02 judges every call that is told a mode.
//! Where nothing leaves memory, our two modes are held against each other.

use crate::rings;
use crate::share;
use crate::tally::Tally;
use crate::{resolve, run, steps, sweeps, targets, views};
use compare::random::Random;

/// Numbers of their own, so that the other comparisons are the same with this one and without.
const OWN: u64 = 0x5EED_0F7D;
/// Of the traced images up to a length, one of so many is traced in this mode too.
const SOME: [(usize, u64); 4] = [(40, 24), (300, 8), (4_100, 4), (70_000, 12)];
/// Images with code at both ends of memory.
const RINGS: u64 = 3_000;
/// Bytes that are repeated up to the end of memory: Nop, and branches whose targets wrap at both ends.
const REPEATED: [&[u8]; 5] = [
    &[0x00],
    &[0x80, 0x7F],
    &[0x80, 0x80],
    &[0x31, 0x00, 0x81],
    &[0x01, 0x7D, 0x00],
];
const LONGEST: usize = pottagewing::IMAGE_LIMIT;

pub fn compare(tally: &mut Tally, random: &mut Random) {
    resolve::compare_wrapping(tally, random);
    targets::compare_wrapping(tally, random);
    steps::compare_wrapping(tally, random);
    views::compare_wrapping(tally, random);
    leaving(tally, random);
    repeated(tally, random);
    for _ in 0..share::times(RINGS) {
        let (image, entries) = rings::image(random);
        one(tally, random, &image, &entries);
    }
}

/// An image whose run is compared in the other mode.
pub fn of_trace(tally: &mut Tally, random: &Random, image: &[u8], entries: &[u32]) {
    let mut random = Random(random.0 ^ OWN);
    let of_length = SOME.iter().find(|(most, _)| image.len() <= *most);
    let (_, of) = *of_length.expect("an image that was traced");
    if random.below(of) == 0 {
        one(tally, &mut random, image, entries);
    }
}

/// A run and sweeps, and over the marks that they leave the views and the listing, which is read back.
fn one(tally: &mut Tally, random: &mut Random, image: &[u8], entries: &[u32]) {
    run::wrapping(tally, random, image, entries);
    sweeps::wrapping(tally, random, image, entries);
    views::wrapping(tally, random, image, entries);
}

/// Short images with a branch of each offset, which leaves memory below 0: it has no target inside, and is listed.
fn leaving(tally: &mut Tally, random: &mut Random) {
    for offset in (0..=255).step_by(share::stride()) {
        for image in [
            &[0x01, offset][..],
            &[0x80, offset, 0xA0],
            &[0x00, 0x90, offset, 0x00, 0xA0],
            &[0x31, 0x05, offset, 0x54, offset, 0xA0],
        ] {
            one(tally, random, image, &[0]);
        }
    }
}

/// Whole images of one instruction, from both ends.
fn repeated(tally: &mut Tally, random: &mut Random) {
    for bytes in REPEATED {
        let image: Vec<u8> = bytes.iter().copied().cycle().take(LONGEST).collect();
        for entry in [0, 1, LONGEST as u32 - 2] {
            one(tally, random, &image, &[entry]);
        }
    }
}
