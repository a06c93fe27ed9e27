//! Whole traces of images of up to ten bytes from up to two entries: document 01's, one for each way that
//! a trace can go, and some by chance.

use crate::Lines;
use crate::packed::{self, LONGEST, OLD_MARK, OLD_PLACE};
use compare::images::{self, KINDS};
use compare::original::traced;
use compare::paper::{Mode, tracer};
use compare::random::Random;
use compare::seen::Seen;

const NO_LIMIT: u32 = u32::MAX;
/// More visits than any image here costs the original.
const ENOUGH: u64 = 10_000;
/// Images by chance of each kind, and from where.
const BY_CHANCE: usize = 12;
const SEED: u64 = 1;

/// Images, each with lists of entries.
const NAMED: [(&[u8], &[&[u32]]); 25] = [
    (
        &[0xB8, 0x0D, 0x21, 0x00, 0x00],
        &[&[0], &[2], &[0, 2], &[2, 0]],
    ),
    // two lists and both joined: what is traced then is not what is traced for the one or the other, and their order matters
    (
        &[0xB8, 0x0D, 0x21, 0x00, 0x04],
        &[&[0], &[2], &[0, 2], &[2, 0]],
    ),
    (
        &[0xB8, 0x0D, 0x21, 0x00, 0x05, 0xA0],
        &[&[0], &[2], &[5, 0]],
    ),
    (&[0xB9, 0x0D, 0x21, 0x00, 0x05, 0xA0], &[&[0]]),
    (&[0xB8, 0x0C, 0x21, 0x00, 0x05, 0xA0], &[&[0]]),
    (&[0xB8, 0x0D, 0x20, 0x00, 0x05, 0xA0], &[&[0]]),
    (&[0xB8, 0x0D, 0x21, 0x00], &[&[0], &[2]]),
    (&[0x01, 0x02, 0xB8, 0x0D, 0x21, 0x00, 0x02], &[&[0], &[2]]),
    (&[0x80, 0x01, 0xB8, 0x0D, 0x21, 0x00, 0x00], &[&[0]]),
    (&[0x01, 0x80], &[&[0]]),
    (&[0x01, 0x7F], &[&[0]]),
    (&[0x01, 0xFE], &[&[0]]),
    (&[0x22, 0x01, 0x00, 0xA0], &[&[0, 2], &[1, 2]]),
    (
        &[0x80, 0x00, 0x80, 0x00, 0x80, 0x00, 0x80, 0x00, 0xA0],
        &[&[0]],
    ),
    (
        &[0x80, 0x03, 0xA0, 0x64, 0xB0, 0x00, 0x01, 0xF8],
        &[&[0], &[5], &[3, 0]],
    ),
    (&[0x08, 0x04, 0xA0, 0x00, 0x28, 0x02], &[&[0]]),
    (&[0x11, 0xFE, 0xFF], &[&[0]]),
    (&[0x10, 0x02, 0x00, 0xA0, 0x21, 0x00, 0x03], &[&[0]]),
    (&[0x20, 0x00, 0x04, 0xA0, 0x31, 0x00, 0xFC], &[&[0]]),
    (&[0x01, 0x02, 0x00, 0x41, 0x64, 0x80, 0xF9, 0xA0], &[&[0]]),
    (&[0x68, 0x00], &[&[0], &[1], &[1, 0]]),
    (&[0x80, 0x01, 0xA0, 0x68, 0x00], &[&[0]]),
    (&[0x00], &[&[], &[0], &[1], &[65_536], &[0, 0]]),
    (&[], &[&[], &[0]]),
    (&[0x00; LONGEST], &[&[0], &[9, 0], &[10, 3]]),
];

pub fn cases(lines: &mut Lines) {
    for (image, lists) in NAMED {
        for entries in lists {
            one(lines, image, entries);
        }
    }
    let mut random = Random(SEED);
    for kind in KINDS {
        for _ in 0..BY_CHANCE {
            let image = images::image(kind, LONGEST, &mut random);
            one(lines, &image, &[random.below(4) as u32, 7]);
        }
    }
}

/// What was noted and not taken up is document 01's; all that the original tells must be as there.
fn one(lines: &mut Lines, image: &[u8], listed: &[u32]) {
    let entries = packed::entries(listed);
    let (mut marks, mut order) = ([OLD_MARK; LONGEST], [OLD_PLACE; LONGEST]);
    let mode = Mode::Unwrapped;
    let answer = tracer::run(mode, image, &mut marks, &mut order, &entries, &[], NO_LIMIT);
    let told = traced::trace(&entries, image, ENOUGH).expect("few visits are enough");
    let known = told.unfollowed.is_some();
    let seen = Seen::of(&answer, &marks[..image.len()], &order, known);
    assert_eq!(seen, told.under(NO_LIMIT), "{image:02X?} {entries:?}");
    let left = packed::left(&answer, &order, &marks);
    lines.case('G', packed::given(image, entries), left);
}
