//! Our calls, with their numbers as the archive's C face has them.

use compare::answer::Answer;
use compare::paper::Mode;
use compare::paper::replay::Traced;
use pottagewing::numbers;
use std::sync::atomic::{AtomicUsize, Ordering};

/// Those that are told no mode stand as they are; the others are below.
pub use pottagewing::numbers::*;

/// The record of a log in blocks.
pub type Record = numbers::Words;

pub fn resolve(mode: Mode, first: u8, operands: [i32; 3], base: u32) -> Answer {
    numbers::resolve(number(mode), first, operands, base)
}

pub fn targets(mode: Mode, first: u8, fields: [i32; 3], position: u32) -> Answer {
    numbers::targets(number(mode), position, first, fields)
}

pub fn step(mode: Mode, image: &[u8], marks: &mut [u8], position: u32) -> Answer {
    numbers::step(number(mode), image, marks, position)
}

pub fn run(
    mode: Mode,
    image: &[u8],
    marks: &mut [u8],
    order: &mut [u32],
    entries: &[u32],
    pins: &[u32],
    limit: u32,
) -> Answer {
    numbers::run(number(mode), image, marks, order, entries, pins, limit)
}

pub fn sweep(mode: Mode, image: &[u8], marks: &mut [u8], entries: &[u32], pins: &[u32]) -> Answer {
    numbers::sweep(number(mode), image, marks, entries, pins)
}

pub fn target_marks(mode: Mode, image: &[u8], marks: &[u8], room: &mut [u8]) -> Answer {
    numbers::target_marks(number(mode), image, marks, room)
}

pub fn arrivals(mode: Mode, image: &[u8], marks: &[u8], position: u32, room: &mut [u32]) -> Answer {
    numbers::arrivals(number(mode), image, marks, position, room)
}

/// `arrivals` is 0 where they are declined.
pub fn listing(mode: Mode, image: &[u8], marks: &[u8], arrivals: u32, room: &mut [u8]) -> Answer {
    numbers::listing(number(mode), image, marks, arrivals, room)
}

pub fn code_line(mode: Mode, position: u32, bytes: &[u8], room: &mut [u8]) -> Answer {
    numbers::code_line(number(mode), position, bytes, room)
}

pub fn read_line(mode: Mode, text: &[u8], place: &mut PlaceWords) -> Answer {
    numbers::read_line(number(mode), text, place)
}

pub fn read_back(
    mode: Mode,
    text: &[u8],
    length: u32,
    image: &mut [u8],
    marks: &mut [u8],
) -> Answer {
    numbers::read_back(number(mode), text, length, image, marks)
}

pub fn replay(traced: Traced, text: &[u8], counts: &mut [u64]) -> Answer {
    let Traced {
        mode,
        image,
        marks,
        entries,
    } = traced;
    numbers::replay(number(mode), text, image, marks, entries, counts)
}

pub fn replay_block(
    record: &mut Record,
    traced: Traced,
    text: &[u8],
    counts: &mut [u64],
) -> Answer {
    let Traced {
        mode,
        image,
        marks,
        entries,
    } = traced;
    numbers::replay_block(number(mode), record, text, image, marks, entries, counts)
}

/// The mode's number. Wrapping is any but 0: some of these take turns.
fn number(mode: Mode) -> u32 {
    const WRAPPING: [u32; 4] = [pottagewing::Mode::Wrapping as u32, 2, 65_536, u32::MAX];
    static TURN: AtomicUsize = AtomicUsize::new(0);
    match mode {
        Mode::Unwrapped => pottagewing::Mode::Unwrapped as u32,
        Mode::Wrapping => WRAPPING[TURN.fetch_add(1, Ordering::Relaxed) % WRAPPING.len()],
    }
}
