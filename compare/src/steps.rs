//! Start and single steps. The original has neither: over marks of any content document 01 judges alone.
//! Taken together they trace: steps in some order must end in what the original traced; in wrapping mode,
//! which it does not have, in what the plain run does.

use crate::lent::Lent;
use crate::ours;
use crate::rings;
use crate::share;
use crate::tally::{Call, Judge, Tally};
use compare::answer::Answer;
use compare::images::{self, FLASH, KINDS, TELLING};
use compare::original::traced;
use compare::paper::{Mode, flow, tracer};
use compare::random::Random;
use pottagewing::Mark;

const CALLS: u64 = 1_000_000;
const WALKS: u64 = 100_000;
/// In wrapping mode: calls on short images, and on images that lead over the end of memory; and walks over these.
const WRAPPING_CALLS: u64 = 200_000;
const RINGS: u64 = 4_000;
const RING_WALKS: u64 = 300;
/// From so many positions at each end a short branch can leave memory.
const END: u32 = 128;
const WAITING: u8 = Mark::Waiting as u8;
/// A longer walk round takes too long.
const MOST_STEPS: i64 = 600;
/// The first byte of a Jmpf.
const JMPF: u8 = 0x21;
/// Visits after which the original is given up.
const ENOUGH: u64 = 4_000;

pub fn compare(tally: &mut Tally, random: &mut Random) {
    for turn in 0..share::times(CALLS) {
        let image = short(random);
        match turn % 4 {
            0 => start(tally, random, &image),
            _ => step(Mode::Unwrapped, tally, random, &image),
        }
    }
    long(tally, random);
    for _ in 0..share::times(WALKS) {
        walk(tally, random);
    }
}

pub fn compare_wrapping(tally: &mut Tally, random: &mut Random) {
    for _ in 0..share::times(WRAPPING_CALLS) {
        let image = short(random);
        step(Mode::Wrapping, tally, random, &image);
    }
    for _ in 0..share::times(RINGS) {
        let (image, _) = rings::image(random);
        step(Mode::Wrapping, tally, random, &image);
        leave(tally, random, &image);
    }
    for _ in 0..share::times(RING_WALKS) {
        walk_round(tally, random);
    }
}

/// A few bytes, at times with the exception among them.
pub fn short(random: &mut Random) -> Vec<u8> {
    let length = random.below(9) as usize;
    let alphabet = random.pick(&[&TELLING[..], &FLASH]);
    let mut byte = || match random.below(4) {
        0 => random.any() as u8,
        _ => random.pick(alphabet),
    };
    let mut image: Vec<u8> = (0..length).map(|_| byte()).collect();
    if length >= 5 && random.below(3) == 0 {
        let at = random.below(length as u64 - 4) as usize;
        image[at..at + 3].copy_from_slice(&[0xB8, 0x0D, JMPF]);
    }
    image
}

/// Images at the longest and past it.
fn long(tally: &mut Tally, random: &mut Random) {
    for length in 65_530..=65_540 {
        for kind in KINDS {
            let image = images::image(kind, length, random);
            for _ in 0..8 {
                start(tally, random, &image);
                step(Mode::Unwrapped, tally, random, &image);
            }
        }
    }
}

/// Mostly marks that a step can meet, at times a damaged one.
pub fn mark(mixed: u64) -> u8 {
    match mixed % 16 {
        0..5 => 1,
        5..9 => 0,
        9..12 => 2,
        12 => 3,
        13 | 14 => 2 + (mixed / 16 % 3) as u8,
        _ => (mixed / 16) as u8,
    }
}

fn marks(random: &mut Random, image: &[u8]) -> Lent<u8> {
    let length = match random.below(32) {
        0 => image.len().saturating_sub(1),
        1..16 => image.len(),
        _ => image.len() + random.below(4) as usize,
    };
    Lent::filled(length, random, mark)
}

#[derive(PartialEq, Debug)]
struct Outcome(Answer, Lent<u8>);

fn start(tally: &mut Tally, random: &mut Random, image: &[u8]) {
    let entries = images::entries(image.len(), random);
    let pins = match random.below(2) {
        0 => vec![],
        _ => images::pins(image, &entries, &[], random),
    };
    tally.pinned.starts += u64::from(!pins.is_empty());
    let mut ours = marks(random, image);
    let mut expected = ours.clone();
    let answer = tracer::start(image, expected.lend(), &entries, &pins);
    let expected = Outcome(answer, expected);
    let answer = ours::start(image, ours.lend(), &entries, &pins);
    let what = (Call::Start, Judge::Document);
    tally.judge(
        what,
        None,
        (expected.0.number, &expected),
        &Outcome(answer, ours),
        || {
            format!(
                "start of {} entries {entries:?} pins {pins:?}",
                shown(image)
            )
        },
    );
}

/// A function that steps, ours or document 01's.
type Step = fn(Mode, &[u8], &mut [u8], u32) -> Answer;

/// What a step is given.
struct Given<'a> {
    image: &'a [u8],
    marks: Lent<u8>,
    position: u32,
}

impl Given<'_> {
    fn compare(&self, mode: Mode, tally: &mut Tally) {
        let expected = self.step(tracer::step, mode);
        let ours = self.step(ours::step, mode);
        let judge = match mode {
            Mode::Unwrapped => Judge::Document,
            Mode::Wrapping => against_unwrapped(tally, self, &ours),
        };
        let first = self.image.get(self.position as usize).copied();
        let number = expected.0.number;
        let what = (Call::Step, judge);
        tally.judge(what, first, (number, &expected), &ours, || {
            format!("{mode:?} {}", self.shown())
        });
    }

    /// Over a copy of the marks.
    fn step(&self, step: Step, mode: Mode) -> Outcome {
        let mut marks = self.marks.clone();
        Outcome(step(mode, self.image, marks.lend(), self.position), marks)
    }

    fn shown(&self) -> String {
        let (image, position, marks) = (shown(self.image), self.position, &self.marks);
        format!("step of {image} at {position}, marks {marks:?}")
    }
}

fn step(mode: Mode, tally: &mut Tally, random: &mut Random, image: &[u8]) {
    let position = match (mode, random.below(16)) {
        (_, 0) => random.pick(&[image.len() as u32, image.len() as u32 + 1, 65_536, u32::MAX]),
        (_, 1..4) => image.iter().position(|byte| *byte == JMPF).unwrap_or(0) as u32,
        (Mode::Wrapping, 4..14) => rings::position(random, image.len()),
        _ => random.below(image.len().max(1) as u64) as u32,
    };
    let given = Given {
        image,
        marks: marks(random, image),
        position,
    };
    given.compare(mode, tally);
}

/// A step that is to lead over an end of memory, in wrapping mode.
fn leave(tally: &mut Tally, random: &mut Random, image: &[u8]) {
    let length = image.len() as u32;
    let ends = (0..END).chain(length - END..length);
    let leaving = rings::leaving(image, ends);
    if leaving.is_empty() {
        return;
    }
    let position = random.pick(&leaving);
    let mut marks = marks(random, image);
    if let Some(mark) = marks.lend().get_mut(position as usize) {
        *mark = WAITING;
    }
    let given = Given {
        image,
        marks,
        position,
    };
    given.compare(Mode::Wrapping, tally);
}
/// Where no target leaves memory both modes answer and leave the same, and where the step is refused before any
/// target is looked at.
fn against_unwrapped(tally: &mut Tally, given: &Given, ours: &Outcome) -> Judge {
    let unwrapped = given.step(ours::step, Mode::Unwrapped);
    let at = given.position as usize;
    let bytes = given.image.get(at..).unwrap_or(&[]);
    let whole = bytes
        .first()
        .is_some_and(|first| flow::size(*first) <= bytes.len());
    if !whole || flow::stays(given.image, at) {
        let what = (Call::ModesAlike, Judge::Wrapping);
        let number = unwrapped.0.number;
        tally.judge(what, None, (number, &unwrapped), ours, || given.shown());
    }
    tally.wrapping.steps += u64::from(unwrapped != *ours);
    Judge::Wrapping
}

/// A start and steps until there is nothing waiting. Without B8 0D 21 the order does not matter and is
/// left to chance; with it, it is that of the original's first visits.
fn walk(tally: &mut Tally, random: &mut Random) {
    let length = random.below(64) as usize;
    let image = images::image(random.pick(&KINDS), length, random);
    let entries = images::entries(length, random);
    let Some(told) = traced::trace(&entries, &image, ENOUGH) else {
        return;
    };
    if told.cut_off.is_some() {
        return;
    }
    let mut marks = vec![0xFF; length];
    ours::start(&image, &mut marks, &entries, &[]);
    if !images::has_flash(&image) {
        while let Some(position) = any_waiting(&marks, random) {
            ours::step(Mode::Unwrapped, &image, &mut marks, position);
        }
    } else {
        for position in &told.taken {
            ours::step(Mode::Unwrapped, &image, &mut marks, *position);
        }
    }
    let mut expected = vec![0; length];
    told.taken.iter().for_each(|at| expected[*at as usize] = 2);
    let unfollowed = told.unfollowed.iter().flatten();
    unfollowed.for_each(|at| expected[*at as usize] = 3);
    tally.judge(
        (Call::Step, Judge::Original),
        None,
        (0, &expected),
        &marks,
        || format!("steps of {} entries {entries:?}", shown(&image)),
    );
}

/// In wrapping mode, over the end of memory: a start and steps in any order until there is nothing waiting. Where the
/// plain run is not cut off, it leaves the same marks.
fn walk_round(tally: &mut Tally, random: &mut Random) {
    let (image, entries) = rings::image(random);
    let length = image.len();
    let (mut expected, mut order) = (vec![0; length], vec![0; length]);
    let mode = Mode::Wrapping;
    let ran = tracer::run(
        mode,
        &image,
        &mut expected,
        &mut order,
        &entries,
        &[],
        u32::MAX,
    );
    if images::has_flash(&image) || !ran.done() || ran.values[1] > MOST_STEPS {
        return;
    }
    let mut marks = vec![0xFF; length];
    ours::start(&image, &mut marks, &entries, &[]);
    for _ in 0..length {
        let Some(position) = any_waiting(&marks, random) else {
            break;
        };
        ours::step(mode, &image, &mut marks, position);
    }
    let what = (Call::Step, Judge::Wrapping);
    tally.judge(what, None, (0, &expected), &marks, || {
        format!("Wrapping steps of {} entries {entries:?}", shown(&image))
    });
}

/// Nothing once each position could have been taken up: a step that changes nothing is found by its marks.
fn any_waiting(marks: &[u8], random: &mut Random) -> Option<u32> {
    let waiting: Vec<usize> = (0..marks.len())
        .filter(|at| marks[*at] == WAITING)
        .collect();
    (!waiting.is_empty()).then(|| random.pick(&waiting) as u32)
}

pub fn shown(image: &[u8]) -> String {
    let beginning = &image[..image.len().min(48)];
    format!("{} bytes {beginning:02X?}", image.len())
}
