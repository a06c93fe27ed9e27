//! Targets asked for alone: fields around every limit at positions around every limit, every position at
//! some fields, and random ones; in wrapping mode too, where document 02 judges alone.

use crate::ours;
use crate::share;
use crate::tally::{Call, Judge, Tally};
use compare::answer::Answer;
use compare::original;
use compare::paper::{self, Kind, Mode, flow};
use compare::random::Random;
use compare::values;
use std::ops::RangeInclusive;

const RANDOM_CALLS: u64 = 2_000_000;
const WRAPPING_CALLS: u64 = 1_000_000;

/// At the ends of memory, around the pages' borders and past what is taken.
const POSITIONS: [u32; 22] = [
    0,
    1,
    2,
    125,
    126,
    127,
    128,
    4_092,
    4_093,
    4_094,
    4_095,
    4_096,
    32_768,
    61_438,
    65_406,
    65_532,
    65_533,
    65_534,
    65_535,
    65_536,
    0x7FFF_FFFF,
    0xFFFF_FFFF,
];

/// At both ends of memory.
const ENDS: [RangeInclusive<u32>; 2] = [0..=200, 65_300..=65_540];

pub fn compare(tally: &mut Tally, random: &mut Random) {
    in_mode(Mode::Unwrapped, tally, random, RANDOM_CALLS);
}

pub fn compare_wrapping(tally: &mut Tally, random: &mut Random) {
    in_mode(Mode::Wrapping, tally, random, WRAPPING_CALLS);
    let is_short = |form: &usize| paper::kinds(*form).ends_with(&[Kind::Short]);
    for form in (0..original::FORMS).filter(is_short) {
        every_offset(tally, form);
    }
}

fn in_mode(mode: Mode, tally: &mut Tally, random: &mut Random, calls: u64) {
    for form in 0..original::FORMS {
        limits(mode, tally, random, form);
        every_position(mode, tally, form);
    }
    for _ in 0..share::times(calls) {
        let first = random.any() as u8;
        let kinds = paper::kinds(original::form(first));
        let fields = random.numbers(kinds, |kind| kind.fields());
        one(mode, tally, first, fields, random.base());
    }
}

/// Each list of fields at each of the positions, under any first byte of the form.
fn limits(mode: Mode, tally: &mut Tally, random: &mut Random, form: usize) {
    let firsts = original::firsts(form);
    let kinds = paper::kinds(form).iter();
    let lists: Vec<Vec<i32>> = kinds.map(|kind| values::fields(*kind)).collect();
    values::products(&lists, &mut |fields| {
        for position in POSITIONS.into_iter().filter(|_| share::is_tried()) {
            one(mode, tally, random.pick(firsts), fields, position);
        }
    });
}

fn every_position(mode: Mode, tally: &mut Tally, form: usize) {
    let first = original::firsts(form)[0];
    for position in (0..=65_540).step_by(share::stride()) {
        for end in [low, high] {
            one(mode, tally, first, paper::numbers(form, end), position);
        }
    }
}

/// A short branch at the ends of memory.
fn every_offset(tally: &mut Tally, form: usize) {
    let first = original::firsts(form)[0];
    for position in ENDS.into_iter().flatten() {
        for offset in (-128..=127).step_by(share::stride()) {
            let fields = paper::numbers(form, |kind| match kind {
                Kind::Short => offset,
                _ => low(kind),
            });
            one(Mode::Wrapping, tally, first, fields, position);
        }
    }
}

fn low(kind: Kind) -> i32 {
    *kind.fields().start()
}

fn high(kind: Kind) -> i32 {
    *kind.fields().end()
}

fn one(mode: Mode, tally: &mut Tally, first: u8, fields: [i32; 3], position: u32) {
    let ours = ours::targets(mode, first, fields, position);
    let expected = flow::targets(mode, first, fields, position);
    let input = || format!("{mode:?} targets of first {first:02X} fields {fields:?} at {position}");
    let judge = match (mode, expected.number) {
        (Mode::Wrapping, _) => against_unwrapped(tally, first, fields, position, ours),
        (_, Answer::DONE) => against_original(tally, first, fields, position, expected),
        _ => Judge::Document,
    };
    let number = expected.number;
    let what = (Call::Targets, judge);
    tally.judge(what, Some(first), (number, &expected), &ours, input);
}

/// The original answers for another number in the place of a target below 0, and so does not judge it.
fn against_original(
    tally: &mut Tally,
    first: u8,
    fields: [i32; 3],
    position: u32,
    expected: Answer,
) -> Judge {
    let targets = original::targets(original::form(first), fields, position);
    if targets.iter().any(|target| *target < 0) {
        return Judge::Document;
    }
    let values: Vec<i64> = [&[targets.len() as i64][..], &targets].concat();
    let theirs = Answer::new(Answer::DONE, &values);
    if theirs != expected {
        tally.table_differs(|| {
            format!("targets of {first:02X} {fields:?} at {position}\n  {expected:?}\n  {theirs:?}")
        });
    }
    Judge::Original
}

/// Where no target leaves memory both modes answer alike, and where it is refused.
fn against_unwrapped(
    tally: &mut Tally,
    first: u8,
    fields: [i32; 3],
    position: u32,
    ours: Answer,
) -> Judge {
    let unwrapped = ours::targets(Mode::Unwrapped, first, fields, position);
    let [_, targets @ ..] = unwrapped.values;
    let stays = targets.iter().all(|target| (0..=65_535).contains(target));
    if stays || !unwrapped.done() {
        let what = (Call::ModesAlike, Judge::Wrapping);
        let number = unwrapped.number;
        tally.judge(what, Some(first), (number, &unwrapped), &ours, || {
            format!("targets of first {first:02X} fields {fields:?} at {position}")
        });
    }
    tally.wrapping.targets += u64::from(unwrapped != ours);
    Judge::Wrapping
}
