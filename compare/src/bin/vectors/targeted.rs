//! Targets: every form at its lowest and highest fields, and the ends of memory and of pages.

use crate::Lines;
use compare::answer::Answer;
use compare::original;
use compare::paper;

/// A position in the middle of a page.
const POSITION: u32 = 0x5678;

/// A form's first byte, its last field and a position: document 01's, then those at the limits.
const NAMED: [(u8, i32, u32); 16] = [
    (0x11, 0x8000, 0),
    (0x01, 127, 0),
    (0x01, -128, 126),
    (0x01, -2, 0),
    (0x01, 127, 65_534),
    (0x80, 0, 0),
    (0x80, -1, 65_534),
    (0x11, 0xFFFF, 0),
    (0x11, 0xFFFD, 0),
    (0x10, 0xFFFF, 65_533),
    (0x28, 0xFFF, 0x0FFD),
    (0x28, 0, 0x0FFE),
    (0x28, 0xABC, 65_534),
    (0x08, 0xFFF, 65_534),
    (0x21, 0xFFFF, 65_533),
    (0x20, 0, 65_533),
];

pub fn cases(lines: &mut Lines) {
    for (first, field, position) in NAMED {
        one(lines, first, [field, 0, 0], position);
    }
    for form in 0..original::FORMS {
        let firsts = original::firsts(form);
        let low = paper::numbers(form, |kind| *kind.fields().start());
        let high = paper::numbers(form, |kind| *kind.fields().end());
        one(lines, firsts[firsts.len() - 1], high, POSITION);
        if paper::kinds(form)
            .last()
            .is_some_and(|kind| kind.is_address())
        {
            one(lines, firsts[0], low, POSITION);
        }
    }
    one(lines, 0x00, [0; 3], 65_535);
    one(lines, 0xA0, [0; 3], 65_535);
}

fn one(lines: &mut Lines, first: u8, fields: [i32; 3], position: u32) {
    let [a, b, c] = fields.map(i64::from);
    let targets = original::targets(original::form(first), fields, position);
    assert!(
        targets.iter().all(|target| *target >= 0),
        "the original differs"
    );
    let values = [&[targets.len() as i64][..], &targets].concat();
    let inputs = [i64::from(first), a, b, c, i64::from(position)];
    lines.case('T', inputs, Answer::new(Answer::DONE, &values));
}
