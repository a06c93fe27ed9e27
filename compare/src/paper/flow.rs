//! Document 01's table of first bytes, as far as tracing needs it, and its targets: written out a second
//! time, by row and column.

use super::{Kind, Mode, encode_refusal, kinds};
use crate::answer::Answer;
use crate::original;

/// The end of memory: no instruction asked for alone may end past it.
const MEMORY: i64 = pottagewing::HIGHEST_ADDRESS as i64 + 1;

/// Where control goes from an instruction.
#[derive(Clone, Copy, PartialEq, Debug)]
pub enum Flow {
    Stops,
    GoesOn,
    Jumps(Kind),
    /// A conditional branch or a call.
    Branches(Kind),
}

use Flow::*;
use Kind::*;

pub fn size(first: u8) -> usize {
    match (first >> 4, first & 15) {
        (1 | 2, 0) => 3,
        (6..=9, 0) => 2,
        (_, 0) => 1,
        (1..=4, 1) => 3,
        (5 | 12, 1) => 1,
        (_, 1) => 2,
        (2..=5, 2 | 3) => 3,
        (_, 2 | 3) => 2,
        (3 | 4, 4..=7) => 3,
        (2 | 5, 4..=7) => 2,
        (_, 4..=7) => 1,
        (4..=9, 8..) => 3,
        (_, _) => 2,
    }
}

pub fn flow(first: u8) -> Flow {
    match (first >> 4, first & 15) {
        (1, 0) => Branches(Wrapping),
        (2, 0) => Branches(Whole),
        (8 | 9, 0) => Branches(Short),
        (10 | 11, 0) => Stops,
        (0, 1) => Jumps(Short),
        (1, 1) => Jumps(Wrapping),
        (2, 1) => Jumps(Whole),
        (3 | 4, 1) => Branches(Short),
        (3..=5, 2..=7) => Branches(Short),
        (0 | 1, 8..) => Branches(Page),
        (2 | 3, 8..) => Jumps(Page),
        (4..=9, 8..) => Branches(Short),
        _ => GoesOn,
    }
}

/// The field that names an address, in the bytes of a whole instruction.
pub(super) fn field(kind: Kind, bytes: &[u8]) -> i64 {
    let byte = |at: usize| i64::from(bytes[at]);
    match kind {
        Whole => byte(1) * 256 + byte(2),
        Wrapping => byte(2) * 256 + byte(1),
        Page => byte(0) / 16 % 2 * 2_048 + byte(0) % 8 * 256 + byte(1),
        _ => i64::from(bytes[bytes.len() - 1] as i8),
    }
}

/// The address that a field names. Only a short branch's goes by the mode.
fn address(mode: Mode, kind: Kind, field: i64, next: i64) -> i64 {
    match kind {
        Wrapping => (next - 1 + field).rem_euclid(65_536),
        Page => next / 4_096 % 16 * 4_096 + field,
        Whole => field,
        _ => mode.target(next + field),
    }
}

fn by_flow(mode: Mode, flow: Flow, next: i64, field: impl Fn(Kind) -> i64) -> Vec<i64> {
    let named = |kind| address(mode, kind, field(kind), next);
    match flow {
        Stops => vec![],
        GoesOn => vec![mode.target(next)],
        Jumps(kind) => vec![named(kind)],
        Branches(kind) => vec![named(kind), mode.target(next)],
    }
}

/// The bytes of the whole instruction at a position of an image.
pub(super) fn instruction(image: &[u8], position: usize) -> &[u8] {
    &image[position..position + size(image[position])]
}

/// The targets of the whole instruction at a position of an image, without the exception.
pub fn targets_at(mode: Mode, image: &[u8], position: usize) -> Vec<i64> {
    targets_of(mode, instruction(image, position), position)
}

/// The same, by its bytes.
pub(super) fn targets_of(mode: Mode, bytes: &[u8], position: usize) -> Vec<i64> {
    let next = (position + bytes.len()) as i64;
    by_flow(mode, flow(bytes[0]), next, |kind| field(kind, bytes))
}

/// Whether no target of the whole instruction at a position leaves memory: then both modes have the same.
pub fn stays(image: &[u8], position: usize) -> bool {
    let targets = targets_at(Mode::Unwrapped, image, position);
    targets.iter().all(|target| (0..MEMORY).contains(target))
}

/// The answer of targets asked for alone. Refusal 14 is judged on next as it is, in both modes.
pub fn targets(mode: Mode, first: u8, fields: [i32; 3], position: u32) -> Answer {
    let form = original::form(first);
    let next = i64::from(position) + size(first) as i64;
    if next > MEMORY {
        return Answer::new(Answer::PAST_MEMORY, &[next]);
    }
    if let Some(refusal) = encode_refusal(form, fields) {
        return refusal;
    }
    let last = |_| i64::from(fields[kinds(form).len() - 1]);
    let targets = by_flow(mode, flow(first), next, last);
    let values: Vec<i64> = [&[targets.len() as i64][..], &targets].concat();
    Answer::new(Answer::DONE, &values)
}

/// Holds the sizes, and which instructions have an address, against the original's patterns and names.
pub fn check_table() {
    for first in 0..=255 {
        let form = original::form(first);
        assert_eq!(size(first), original::size(form), "{first:02X}");
        let address = kinds(form).last().filter(|kind| kind.is_address());
        let named = match flow(first) {
            Jumps(kind) | Branches(kind) => Some(kind),
            Stops | GoesOn => None,
        };
        assert_eq!(named.as_ref(), address, "{first:02X}");
    }
}
