//! Sweeps over images of up to ten bytes from up to two entries: one for each way that they can go, one that is written
//! out sweep by sweep, and some by chance.

use crate::Lines;
use crate::packed::{self, LONGEST, OLD_MARK, OLD_PLACE};
use compare::answer::Answer;
use compare::images::{self, KINDS, Kind};
use compare::original::traced;
use compare::paper::{Mode, sweep, tracer};
use compare::random::Random;
use pottagewing::Mark;

/// The original's mode, in which it is asked what it traced.
const MODE: Mode = Mode::Unwrapped;
/// More visits than any image here costs the original.
const ENOUGH: u64 = 10_000;
/// Images by chance: so many with branches back, of some length from this one on. And from where they are.
const TURNING: usize = 8;
const SHORTEST: usize = 5;
const SEED: u64 = 6;
/// The marks of a position that waits, and of one that is traced.
const WAITING: u8 = Mark::Waiting as u8;
const TRACED: u8 = Mark::Traced as u8;

/// An image swept by hand, from entry 0: a Br to 5, an Inc, a Bz to 7, a Br to 2, a Ret.
const BY_HAND: [u8; 8] = [0x01, 0x03, 0x64, 0x80, 0x02, 0x01, 0xFB, 0xA0];
/// Its marks after the start and after each sweep, and how many positions the sweep takes.
const SWEEP_BY_SWEEP: [([u8; 8], usize); 4] = [
    ([1, 0, 0, 0, 0, 0, 0, 0], 0),
    ([2, 0, 1, 0, 0, 2, 0, 0], 2),
    ([2, 0, 2, 2, 0, 2, 0, 2], 3),
    ([2, 0, 2, 2, 0, 2, 0, 2], 0),
];

/// Images, each with lists of entries.
const NAMED: [(&[u8], &[&[u32]]); 17] = [
    (&BY_HAND, &[&[0], &[7, 2]]),
    // nothing to take
    (&[], &[&[], &[0]]),
    (&[0x00], &[&[], &[1], &[65_536]]),
    // one sweep takes all, and the next none
    (&[0x00, 0xA0], &[&[0], &[1, 0]]),
    (&[0x01, 0xFE], &[&[0]]),
    (&[0x01, 0x02, 0x00, 0x41, 0x64, 0x80, 0xF9, 0xA0], &[&[0]]),
    // a branch back takes another sweep
    (
        &[0xA0, 0x00, 0x01, 0xFC, 0x01, 0xFC, 0x01, 0xFC, 0x01, 0xFC],
        &[&[8], &[8, 4]],
    ),
    (
        &[0x80, 0x03, 0xA0, 0x64, 0xB0, 0x00, 0x01, 0xF8],
        &[&[5], &[3, 6]],
    ),
    (&[0x64, 0xA0, 0x80, 0xFC, 0x90, 0xFC, 0xA0], &[&[4]]),
    // what is cut off is left waiting
    (&[0x68, 0x00], &[&[0], &[1, 0]]),
    (&[0x80, 0x01, 0xA0, 0x68, 0x00], &[&[0], &[3, 0]]),
    (&[0xA0, 0x01, 0xFD, 0x80, 0xFC, 0x21], &[&[3]]),
    // a Jmpf after B8 0D, taken up after it or before
    (
        &[0xB8, 0x0D, 0x21, 0x00, 0x00],
        &[&[2, 0], &[0, 2], &[0], &[2]],
    ),
    // two lists and both joined: 4 is traced for the second alone. A sweep goes upward, whatever their order
    (
        &[0xB8, 0x0D, 0x21, 0x00, 0x04],
        &[&[0], &[2], &[0, 2], &[2, 0]],
    ),
    (
        &[0xB8, 0x0D, 0x21, 0x00, 0x07, 0x80, 0xF9, 0xA0],
        &[&[5], &[5, 2], &[2, 5]],
    ),
    (
        &[0x00, 0x01, 0x02, 0xB8, 0x0D, 0x21, 0x00, 0x00, 0x01, 0xF9],
        &[&[0, 8]],
    ),
    (&[0xB8, 0x0D, 0x21, 0x00], &[&[2, 0]]),
];

pub fn cases(lines: &mut Lines) {
    by_hand();
    for (image, lists) in NAMED {
        for entries in lists {
            one(lines, image, entries);
        }
    }
    let mut random = Random(SEED);
    for kind in KINDS {
        let image = images::image(kind, LONGEST, &mut random);
        one(lines, &image, &[7, random.below(7) as u32]);
    }
    for _ in 0..TURNING {
        let (image, entries) = turning(&mut random);
        one(lines, &image, &entries);
    }
}

/// An image, and entries from which more than one sweep takes a position.
fn turning(random: &mut Random) -> (Vec<u8>, [u32; 2]) {
    loop {
        let length = SHORTEST + random.below((LONGEST - SHORTEST) as u64 + 1) as usize;
        let kind = random.pick(&[Kind::Branching, Kind::Flashing]);
        let image = images::image(kind, length, random);
        let entries = [0, 1].map(|_| random.below(length as u64) as u32);
        let answer = sweep::sweep(MODE, &image, &mut [OLD_MARK; LONGEST], &entries, &[]);
        if answer.values[0] > 2 {
            return (image, entries);
        }
    }
}

/// The plain engine sweeps as the table says.
fn by_hand() {
    let mut marks = [OLD_MARK; BY_HAND.len()];
    tracer::start(&BY_HAND, &mut marks, &[0], &[]);
    assert_eq!(marks, SWEEP_BY_SWEEP[0].0, "after the start");
    for (expected, taken) in &SWEEP_BY_SWEEP[1..] {
        assert_eq!(sweep::once(MODE, &BY_HAND, &mut marks), *taken, "a sweep");
        assert_eq!(marks, *expected, "after a sweep");
    }
}

fn one(lines: &mut Lines, image: &[u8], listed: &[u32]) {
    let entries = packed::entries(listed);
    let mut marks = [OLD_MARK; LONGEST];
    let answer = sweep::sweep(MODE, image, &mut marks, &entries, &[]);
    assert!(answer.number == Answer::DONE, "ten marks are enough");
    if !images::has_flash(image) {
        as_traced(image, entries, &marks[..image.len()]);
    }
    let left = packed::left(&answer, &[OLD_PLACE; LONGEST], &marks);
    lines.case('W', packed::given(image, entries), left);
}

/// What the original traced is traced; a position is waiting where it was cut off.
fn as_traced(image: &[u8], entries: [u32; 2], marks: &[u8]) {
    let told = traced::trace(&entries, image, ENOUGH).expect("few visits are enough");
    let mut expected = vec![0; image.len()];
    told.taken
        .iter()
        .for_each(|at| expected[*at as usize] = TRACED);
    let is_so = match told.cut_off {
        None => marks == expected,
        Some(_) => marks.contains(&WAITING),
    };
    assert!(is_so, "{image:02X?} {entries:?}: {marks:?}");
}
