//! Decode over every string of up to three bytes, and back through encode.

use crate::encode;
use crate::ours;
use crate::share;
use crate::tally::{Call, Judge, Tally};
use compare::original;
use compare::random::Random;

pub fn compare(tally: &mut Tally, random: &mut Random) {
    one(tally, &[], random);
    for a in 0..=255 {
        one(tally, &[a], random);
        for b in 0..=255 {
            one(tally, &[a, b], random);
            for c in (0..=255).step_by(share::stride()) {
                one(tally, &[a, b, c], random);
            }
        }
    }
    for first in 0..=255 {
        longer(tally, first, random);
    }
}

fn one(tally: &mut Tally, bytes: &[u8], random: &mut Random) {
    let theirs = original::decode(bytes);
    let ours = ours::decode(bytes);
    tally.judge(
        (Call::Decode, Judge::Original),
        bytes.first().copied(),
        (theirs.number, &theirs),
        &ours,
        || format!("decode {bytes:02X?}"),
    );
    if theirs.done() {
        let [_, _, fields @ ..] = theirs.values;
        back(tally, bytes, fields.map(|field| field as i32), random.any());
    }
}

/// The fields must give the bytes again, in a room that just fits; and in a room of any length, under
/// any first byte of the form, what document 01 says.
fn back(tally: &mut Tally, bytes: &[u8], fields: [i32; 3], turn: u64) {
    let form = original::form(bytes[0]);
    let size = original::size(form);
    let encoded = original::encode(form, fields);
    assert!(
        encoded == bytes[..size],
        "the stand-in's encode of its own {bytes:02X?}"
    );
    encode::one(tally, bytes[0], fields, size, turn);
    let firsts = original::firsts(form);
    let first = firsts[turn as usize % firsts.len()];
    encode::one(tally, first, fields, turn as usize / 16 % 7, turn);
}

/// What follows an instruction must not matter.
fn longer(tally: &mut Tally, first: u8, random: &mut Random) {
    for length in 4..=40 {
        let mut bytes: Vec<u8> = (0..length).map(|_| random.any() as u8).collect();
        bytes[0] = first;
        one(tally, &bytes, random);
    }
}
