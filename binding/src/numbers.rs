//! The calls with their numbers as they stand: a mode is 0 or any other number, arrivals are declined by 0, and the answer is not looked at.
//!
//! What is lent is never null and stays as long as the call, since it is a slice; what is lent for writing overlaps nothing. Two slices that
//! are only read may overlap: no call writes through them.

use crate::declared::*;
use crate::{Answer, PLACE_WORDS, REPLAY_WORDS, VALUES};

/// The numbers of a record, as [`replay_open`] makes them.
pub type Words = [u64; REPLAY_WORDS];

/// The numbers of a place, as [`read_line`] takes and leaves them.
pub type PlaceWords = [u64; PLACE_WORDS];

#[inline]
pub fn version() -> u32 {
    unsafe { pw_version() }
}

/// The values begin as numbers that no answer has, so that one left unwritten would be seen.
#[inline]
fn answered(call: impl FnOnce(*mut [i64; VALUES]) -> u32) -> Answer {
    let mut values = [i64::MIN; VALUES];
    let number = call(&mut values);
    Answer { number, values }
}

#[inline]
pub fn decode(bytes: &[u8]) -> Answer {
    answered(|values| unsafe { pw_decode(bytes.as_ptr(), bytes.len(), values) })
}

#[inline]
pub fn encode(first: u8, fields: [i32; 3], room: &mut [u8]) -> Answer {
    let [a, b, c] = fields;
    let (at, n) = (room.as_mut_ptr(), room.len());
    answered(|values| unsafe { pw_encode(first, a, b, c, at, n, values) })
}

#[inline]
pub fn resolve(mode: u32, first: u8, operands: [i32; 3], base: u32) -> Answer {
    let [a, b, c] = operands;
    answered(|values| unsafe { pw_resolve(mode, first, a, b, c, base, values) })
}

#[inline]
pub fn targets(mode: u32, position: u32, first: u8, fields: [i32; 3]) -> Answer {
    let [a, b, c] = fields;
    answered(|values| unsafe { pw_targets(mode, position, first, a, b, c, values) })
}

#[inline]
pub fn start(image: &[u8], marks: &mut [u8], entries: &[u32], pins: &[u32]) -> Answer {
    answered(|values| unsafe {
        pw_start(
            image.as_ptr(),
            image.len(),
            marks.as_mut_ptr(),
            marks.len(),
            entries.as_ptr(),
            entries.len(),
            pins.as_ptr(),
            pins.len(),
            values,
        )
    })
}

#[inline]
pub fn step(mode: u32, image: &[u8], marks: &mut [u8], position: u32) -> Answer {
    let (at, n) = (marks.as_mut_ptr(), marks.len());
    answered(|values| unsafe {
        pw_step(mode, image.as_ptr(), image.len(), at, n, position, values)
    })
}

#[inline]
pub fn run(
    mode: u32,
    image: &[u8],
    marks: &mut [u8],
    order: &mut [u32],
    entries: &[u32],
    pins: &[u32],
    limit: u32,
) -> Answer {
    answered(|values| unsafe {
        pw_run(
            mode,
            image.as_ptr(),
            image.len(),
            marks.as_mut_ptr(),
            marks.len(),
            order.as_mut_ptr(),
            order.len(),
            entries.as_ptr(),
            entries.len(),
            pins.as_ptr(),
            pins.len(),
            limit,
            values,
        )
    })
}

#[inline]
pub fn sweep(mode: u32, image: &[u8], marks: &mut [u8], entries: &[u32], pins: &[u32]) -> Answer {
    answered(|values| unsafe {
        pw_sweep(
            mode,
            image.as_ptr(),
            image.len(),
            marks.as_mut_ptr(),
            marks.len(),
            entries.as_ptr(),
            entries.len(),
            pins.as_ptr(),
            pins.len(),
            values,
        )
    })
}

#[inline]
pub fn mask(image: &[u8], marks: &[u8], room: &mut [u8]) -> Answer {
    answered(|values| unsafe {
        pw_mask(
            image.as_ptr(),
            image.len(),
            marks.as_ptr(),
            marks.len(),
            room.as_mut_ptr(),
            room.len(),
            values,
        )
    })
}

#[inline]
pub fn target_marks(mode: u32, image: &[u8], marks: &[u8], room: &mut [u8]) -> Answer {
    answered(|values| unsafe {
        pw_target_marks(
            mode,
            image.as_ptr(),
            image.len(),
            marks.as_ptr(),
            marks.len(),
            room.as_mut_ptr(),
            room.len(),
            values,
        )
    })
}

#[inline]
pub fn overlaps(image: &[u8], marks: &[u8], position: u32, room: &mut [u32]) -> Answer {
    answered(|values| unsafe {
        pw_overlaps(
            image.as_ptr(),
            image.len(),
            marks.as_ptr(),
            marks.len(),
            position,
            room.as_mut_ptr(),
            room.len(),
            values,
        )
    })
}

#[inline]
pub fn arrivals(mode: u32, image: &[u8], marks: &[u8], position: u32, room: &mut [u32]) -> Answer {
    answered(|values| unsafe {
        pw_arrivals(
            mode,
            image.as_ptr(),
            image.len(),
            marks.as_ptr(),
            marks.len(),
            position,
            room.as_mut_ptr(),
            room.len(),
            values,
        )
    })
}

#[inline]
pub fn data_run(image: &[u8], mask: &[u8], position: u32) -> Answer {
    let (at, n) = (mask.as_ptr(), mask.len());
    answered(|values| unsafe { pw_data_run(image.as_ptr(), image.len(), at, n, position, values) })
}

#[inline]
pub fn listing(mode: u32, image: &[u8], marks: &[u8], arrivals: u32, room: &mut [u8]) -> Answer {
    answered(|values| unsafe {
        pw_listing(
            mode,
            image.as_ptr(),
            image.len(),
            marks.as_ptr(),
            marks.len(),
            arrivals,
            room.as_mut_ptr(),
            room.len(),
            values,
        )
    })
}

#[inline]
pub fn code_line(mode: u32, position: u32, bytes: &[u8], room: &mut [u8]) -> Answer {
    let (at, n) = (room.as_mut_ptr(), room.len());
    answered(|values| unsafe {
        pw_code_line(mode, position, bytes.as_ptr(), bytes.len(), at, n, values)
    })
}

#[inline]
pub fn list_text(text: &[u8], room: &mut [u8]) -> Answer {
    let (at, n) = (room.as_mut_ptr(), room.len());
    answered(|values| unsafe { pw_list_text(text.as_ptr(), text.len(), at, n, values) })
}

#[inline]
pub fn parse(text: &[u8], entries: &mut [u32], image: &mut [u8]) -> Answer {
    answered(|values| unsafe {
        pw_parse(
            text.as_ptr(),
            text.len(),
            entries.as_mut_ptr(),
            entries.len(),
            image.as_mut_ptr(),
            image.len(),
            values,
        )
    })
}

#[inline]
pub fn report_text(text: &[u8], room: &mut [u8]) -> Answer {
    let (at, n) = (room.as_mut_ptr(), room.len());
    answered(|values| unsafe { pw_report_text(text.as_ptr(), text.len(), at, n, values) })
}

#[inline]
pub fn read_back(
    mode: u32,
    text: &[u8],
    length: u32,
    image: &mut [u8],
    marks: &mut [u8],
) -> Answer {
    answered(|values| unsafe {
        pw_read_back(
            mode,
            text.as_ptr(),
            text.len(),
            length,
            image.as_mut_ptr(),
            image.len(),
            marks.as_mut_ptr(),
            marks.len(),
            values,
        )
    })
}

#[inline]
pub fn read_line(mode: u32, text: &[u8], place: &mut PlaceWords) -> Answer {
    answered(|values| unsafe { pw_read_line(mode, text.as_ptr(), text.len(), place, values) })
}

#[inline]
pub fn unlist_text(text: &[u8], length: u32, room: &mut [u8]) -> Answer {
    let (at, n) = (room.as_mut_ptr(), room.len());
    answered(|values| unsafe { pw_unlist_text(text.as_ptr(), text.len(), length, at, n, values) })
}

#[inline]
pub fn map_build(image: &[u8], marks: &[u8], words: &mut [u64]) -> Answer {
    answered(|values| unsafe {
        pw_map_build(
            image.as_ptr(),
            image.len(),
            marks.as_ptr(),
            marks.len(),
            words.as_mut_ptr(),
            words.len(),
            values,
        )
    })
}

#[inline]
pub fn map_test(words: &[u64], length: u32, position: u32) -> Answer {
    let (at, n) = (words.as_ptr(), words.len());
    answered(|values| unsafe { pw_map_test(at, n, length, position, values) })
}

/// The stretch excludes its end.
#[inline]
pub fn map_count(words: &[u64], length: u32, begin: u32, end: u32) -> Answer {
    let (at, n) = (words.as_ptr(), words.len());
    answered(|values| unsafe { pw_map_count(at, n, length, begin, end, values) })
}

#[inline]
pub fn map_first_data(words: &[u64], length: u32, position: u32) -> Answer {
    let (at, n) = (words.as_ptr(), words.len());
    answered(|values| unsafe { pw_map_first_data(at, n, length, position, values) })
}

#[inline]
pub fn map_update(image: &[u8], marks: &[u8], words: &mut [u64], position: u32) -> Answer {
    answered(|values| unsafe {
        pw_map_update(
            image.as_ptr(),
            image.len(),
            marks.as_ptr(),
            marks.len(),
            words.as_mut_ptr(),
            words.len(),
            position,
            values,
        )
    })
}

#[inline]
pub fn replay(
    mode: u32,
    text: &[u8],
    image: &[u8],
    marks: &[u8],
    entries: &[u32],
    counts: &mut [u64],
) -> Answer {
    answered(|values| unsafe {
        pw_replay(
            mode,
            text.as_ptr(),
            text.len(),
            image.as_ptr(),
            image.len(),
            marks.as_ptr(),
            marks.len(),
            entries.as_ptr(),
            entries.len(),
            counts.as_mut_ptr(),
            counts.len(),
            values,
        )
    })
}

#[inline]
pub fn replay_open(record: &mut Words) {
    unsafe { pw_replay_open(record) }
}

#[inline]
pub fn replay_block(
    mode: u32,
    record: &mut Words,
    text: &[u8],
    image: &[u8],
    marks: &[u8],
    entries: &[u32],
    counts: &mut [u64],
) -> Answer {
    answered(|values| unsafe {
        pw_replay_block(
            mode,
            record,
            text.as_ptr(),
            text.len(),
            image.as_ptr(),
            image.len(),
            marks.as_ptr(),
            marks.len(),
            entries.as_ptr(),
            entries.len(),
            counts.as_mut_ptr(),
            counts.len(),
            values,
        )
    })
}

#[inline]
pub fn replay_close(record: &Words) -> Answer {
    answered(|values| unsafe { pw_replay_close(record, values) })
}
