//! Decode: every form, cut off at every length, with other bytes behind, and nothing at all.

use crate::Lines;
use compare::original;
use compare::paper::{self, Kind};

/// The byte strings that document 01 names.
const NAMED: [&[u8]; 8] = [
    &[0xB8, 0x0D],
    &[0x01, 0x7F],
    &[0x01, 0x80],
    &[0x23, 0x00, 0x55],
    &[0x1F, 0x34],
    &[0x21, 0x12, 0x34],
    &[0x11, 0x00, 0x80],
    &[0x68, 0x00],
];

pub fn cases(lines: &mut Lines) {
    one(lines, &[]);
    for bytes in NAMED {
        one(lines, bytes);
    }
    for form in 0..original::FORMS {
        let firsts = original::firsts(form);
        let size = original::size(form);
        let (lowest, highest) = (firsts[0], firsts[firsts.len() - 1]);
        one(lines, &[lowest, 0x00, 0x00][..size]);
        one(lines, &[highest, 0xFF, 0xFF][..size]);
        one(lines, &[highest, 0x80, 0x7F]);
        if paper::kinds(form).ends_with(&[Kind::Short]) {
            one(lines, &[lowest, 0x7F, 0x80][..size]);
        }
        for length in 1..size {
            one(lines, &[highest, 0x34, 0x12][..length]);
        }
    }
}

fn one(lines: &mut Lines, bytes: &[u8]) {
    let mut inputs = [bytes.len() as i64, 0, 0, 0, 0];
    for (at, byte) in bytes.iter().enumerate() {
        inputs[at + 1] = i64::from(*byte);
    }
    lines.case('D', inputs, original::decode(bytes));
}
