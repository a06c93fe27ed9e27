//! Document 01's views, in both modes of document 02 where they use a target, written out a second time and plainly.

use super::Mode;
use super::flow::{self, Flow};
use super::tracer::{self, PINNED, UNFOLLOWED};
use crate::answer::Answer;

/// The longest data run.
const RUN: usize = pottagewing::RUN_LENGTH;
/// The first byte of a Jmpf.
const JMPF: u8 = 0x21;

fn is_damaged(image: &[u8], marks: &[u8], at: usize) -> bool {
    let mark = marks[at];
    let cut = tracer::is_traced(mark) && tracer::cut_off(image, at).is_some();
    mark > PINNED || cut || mark == UNFOLLOWED && image[at] != JMPF
}

/// Refusals 1, 2 and 6.
pub(super) fn refusal(image: &[u8], marks: &[u8]) -> Option<Answer> {
    tracer::sizes(image, marks).or_else(|| {
        let lowest = (0..image.len()).find(|at| is_damaged(image, marks, *at));
        lowest.map(|at| Answer::new(Answer::DAMAGED, &[at as i64]))
    })
}

/// Lays what is to be shown over the beginning of the room.
pub(super) fn show<T: Copy>(
    image: &[u8],
    marks: &[u8],
    room: &mut [T],
    list: impl FnOnce() -> Vec<T>,
) -> Answer {
    if let Some(refusal) = refusal(image, marks) {
        return refusal;
    }
    let list = list();
    let count = [list.len() as i64];
    if room.len() < list.len() {
        return Answer::new(Answer::NO_ROOM, &count);
    }
    room[..list.len()].copy_from_slice(&list);
    Answer::new(Answer::DONE, &count)
}

fn traced(image: &[u8], marks: &[u8]) -> impl Iterator<Item = usize> {
    (0..image.len()).filter(|at| tracer::is_traced(marks[*at]))
}

/// Whether nothing that is traced leaves memory, by marks that are not damaged.
pub fn stays(image: &[u8], marks: &[u8]) -> bool {
    traced(image, marks).all(|at| flow::stays(image, at))
}

/// The mask, of marks that are not damaged.
pub fn mask_of(image: &[u8], marks: &[u8]) -> Vec<u8> {
    let mut mask = vec![0; image.len()];
    for at in traced(image, marks) {
        mask[at..at + flow::size(image[at])].fill(1);
    }
    mask
}

pub fn mask(image: &[u8], marks: &[u8], room: &mut [u8]) -> Answer {
    show(image, marks, room, || mask_of(image, marks))
}

/// What the instruction at a position names: of a jump, branch or call the first target.
fn named(mode: Mode, image: &[u8], at: usize) -> Option<i64> {
    match flow::flow(image[at]) {
        Flow::Jumps(_) | Flow::Branches(_) => flow::targets_at(mode, image, at).first().copied(),
        Flow::Stops | Flow::GoesOn => None,
    }
}

pub fn target_marks(mode: Mode, image: &[u8], marks: &[u8], room: &mut [u8]) -> Answer {
    show(image, marks, room, || {
        let mut labels = vec![0; image.len()];
        let naming = traced(image, marks).filter(|at| !tracer::is_exempt(image, marks, *at));
        for target in naming.filter_map(|at| named(mode, image, at)) {
            if (0..image.len() as i64).contains(&target) {
                labels[target as usize] = 1;
            }
        }
        labels
    })
}

/// The overlaps at a position, of marks that are not damaged.
pub fn overlaps_at(image: &[u8], marks: &[u8], at: usize) -> Vec<u32> {
    let is_traced = |at: usize| at < image.len() && tracer::is_traced(marks[at]);
    if !is_traced(at) {
        return vec![];
    }
    let before = at.checked_sub(1).filter(|at| is_traced(*at));
    let before = before.filter(|at| flow::size(image[*at]) >= 2);
    let after = (at + 1..at + flow::size(image[at])).filter(|at| is_traced(*at));
    before
        .into_iter()
        .chain(after)
        .map(|at| at as u32)
        .collect()
}

pub fn overlaps(image: &[u8], marks: &[u8], position: u32, room: &mut [u32]) -> Answer {
    show(image, marks, room, || {
        overlaps_at(image, marks, position as usize)
    })
}

/// The arrivals at a position, of marks that are not damaged.
pub fn arrivals_at(mode: Mode, image: &[u8], marks: &[u8], at: usize) -> Vec<u32> {
    if at >= image.len() {
        return vec![];
    }
    let arrives = |from: &usize| flow::targets_at(mode, image, *from).contains(&(at as i64));
    let arriving = followed(image, marks).filter(arrives);
    arriving.map(|from| from as u32).collect()
}

/// The traced positions that had the targets of their form.
pub(super) fn followed(image: &[u8], marks: &[u8]) -> impl Iterator<Item = usize> {
    traced(image, marks).filter(|at| marks[*at] != UNFOLLOWED)
}

pub fn arrivals(mode: Mode, image: &[u8], marks: &[u8], position: u32, room: &mut [u32]) -> Answer {
    show(image, marks, room, || {
        arrivals_at(mode, image, marks, position as usize)
    })
}

/// The length of the data run at a position.
pub fn data_run(image: &[u8], mask: &[u8], position: u32) -> Answer {
    let bytes = image.iter().zip(mask).skip(position as usize).take(RUN);
    let count = bytes.take_while(|(_, masked)| **masked == 0).count();
    Answer::new(Answer::DONE, &[count as i64])
}
