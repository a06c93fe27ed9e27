//! Document 01's start, step and run, in both modes of document 02 and with its pins, written out a second time and plainly.

use super::{Mode, flow};
use crate::answer::Answer;
use pottagewing::Mark;

/// The longest image.
pub const LONGEST: usize = pottagewing::IMAGE_LIMIT;

const UNTOUCHED: u8 = Mark::Untouched as u8;
const WAITING: u8 = Mark::Waiting as u8;
const TRACED: u8 = Mark::Traced as u8;
pub(super) const UNFOLLOWED: u8 = Mark::Flash as u8;
pub(super) const PINNED: u8 = Mark::Pinned as u8;

fn length(number: u32, length: usize) -> Option<Answer> {
    Some(Answer::new(number, &[length as i64]))
}

/// Refusals 1 and 2.
pub(super) fn sizes(image: &[u8], marks: &[u8]) -> Option<Answer> {
    match () {
        () if image.len() > LONGEST => length(Answer::LONG_IMAGE, image.len()),
        () if marks.len() < image.len() => length(Answer::SHORT_MARKS, marks.len()),
        () => None,
    }
}

pub(super) fn is_traced(mark: u8) -> bool {
    mark == TRACED || mark == UNFOLLOWED
}

/// How many positions of the image are traced.
pub fn traced(image: &[u8], marks: &[u8]) -> usize {
    marks[..image.len()]
        .iter()
        .filter(|mark| is_traced(**mark))
        .count()
}

/// Sets 1 at those positions inside the image that are untouched: these, in their order.
fn note(image: &[u8], marks: &mut [u8], positions: impl IntoIterator<Item = i64>) -> Vec<u32> {
    let mut noted = vec![];
    for position in positions {
        if (0..image.len() as i64).contains(&position) && marks[position as usize] == UNTOUCHED {
            marks[position as usize] = WAITING;
            noted.push(position as u32);
        }
    }
    noted
}

fn clear_and_note(image: &[u8], marks: &mut [u8], entries: &[u32], pins: &[u32]) -> Vec<u32> {
    marks[..image.len()].fill(UNTOUCHED);
    for pin in pins.iter().filter(|pin| (**pin as usize) < image.len()) {
        marks[*pin as usize] = PINNED;
    }
    note(image, marks, entries.iter().map(|entry| i64::from(*entry)))
}

pub fn start(image: &[u8], marks: &mut [u8], entries: &[u32], pins: &[u32]) -> Answer {
    if let Some(refusal) = sizes(image, marks) {
        return refusal;
    }
    let set = clear_and_note(image, marks, entries, pins).len();
    Answer::new(Answer::DONE, &[set as i64])
}

/// Refusal 5, with the number of missing bytes that document 02's W2 adds.
pub(super) fn cut_off(image: &[u8], at: usize) -> Option<Answer> {
    let missing = (at + flow::size(image[at])).saturating_sub(image.len());
    let values = [at as i64, i64::from(image[at]), missing as i64];
    (missing > 0).then(|| Answer::new(Answer::CUT_OFF, &values))
}

/// Whether a Jmpf stands at a position with B8 0D before it.
pub fn after_flash(image: &[u8], at: usize) -> bool {
    at >= 2 && image[at - 2..=at] == [0xB8, 0x0D, 0x21]
}

pub(super) fn is_exempt(image: &[u8], marks: &[u8], at: usize) -> bool {
    after_flash(image, at) && is_traced(marks[at - 2])
}

/// The targets of a position when it is taken up.
fn targets(mode: Mode, image: &[u8], marks: &[u8], at: usize) -> Vec<i64> {
    match is_exempt(image, marks, at) {
        true => vec![],
        false => flow::targets_at(mode, image, at),
    }
}

/// Takes up a position: its new mark, and what became waiting.
fn take_up(mode: Mode, image: &[u8], marks: &mut [u8], at: usize) -> (u8, Vec<u32>) {
    let targets = targets(mode, image, marks, at);
    let mark = match is_exempt(image, marks, at) {
        true => UNFOLLOWED,
        false => TRACED,
    };
    marks[at] = mark;
    (mark, note(image, marks, targets))
}

/// The damage that a step finds beside its position.
fn damage(mode: Mode, image: &[u8], marks: &[u8], at: usize) -> Option<usize> {
    let damaged = |at: &usize| marks[*at] > PINNED;
    let before = after_flash(image, at).then(|| at - 2).filter(damaged);
    let inside = |target: &i64| (0..image.len() as i64).contains(target);
    let targets = targets(mode, image, marks, at).into_iter().filter(inside);
    before.or_else(|| targets.map(|target| target as usize).find(damaged))
}

pub fn step(mode: Mode, image: &[u8], marks: &mut [u8], position: u32) -> Answer {
    if let Some(refusal) = sizes(image, marks) {
        return refusal;
    }
    let at = position as usize;
    let mark = if at < image.len() {
        marks[at]
    } else {
        UNTOUCHED
    };
    if mark > PINNED {
        return Answer::new(Answer::DAMAGED, &[i64::from(position)]);
    }
    if mark != WAITING {
        return Answer::new(Answer::NOT_WAITING, &[i64::from(mark)]);
    }
    if let Some(refusal) = cut_off(image, at) {
        return refusal;
    }
    if let Some(place) = damage(mode, image, marks, at) {
        return Answer::new(Answer::DAMAGED, &[place as i64]);
    }
    let (mark, noted) = take_up(mode, image, marks, at);
    Answer::new(Answer::DONE, &[i64::from(mark), noted.len() as i64])
}

pub fn run(
    mode: Mode,
    image: &[u8],
    marks: &mut [u8],
    order: &mut [u32],
    entries: &[u32],
    pins: &[u32],
    limit: u32,
) -> Answer {
    let short = order.len() < image.len();
    let short_order = || length(Answer::SHORT_ORDER, order.len());
    if let Some(refusal) = sizes(image, marks).or_else(|| short.then(short_order).flatten()) {
        return refusal;
    }
    let mut noted = clear_and_note(image, marks, entries, pins);
    let mut steps = 0;
    let answer = loop {
        let counts = |finished| [finished, steps as i64, noted.len() as i64];
        if steps == noted.len() {
            break Answer::new(Answer::DONE, &counts(1));
        }
        if steps == limit as usize {
            break Answer::new(Answer::DONE, &counts(0));
        }
        let at = noted[steps] as usize;
        if let Some(refusal) = cut_off(image, at) {
            break refusal;
        }
        noted.extend(take_up(mode, image, marks, at).1);
        steps += 1;
    };
    order[..noted.len()].copy_from_slice(&noted);
    answer
}
