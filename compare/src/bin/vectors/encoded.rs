//! Encode: every form with its lowest fields, its highest and some between, in rooms that just fit and
//! in longer ones. The first byte only names the form, so it is one whose own fields are others.

use crate::Lines;
use compare::answer::Answer;
use compare::original;
use compare::paper::{self, Kind};

/// Instructions that document 01 names: a first byte of the form, and the fields.
const NAMED: [(u8, [i32; 3]); 4] = [
    (0xA8, [0x10D, 0, 0]),
    (0x22, [0x55, 0x100, 0]),
    (0x08, [0xF34, 0, 0]),
    (0x11, [0xFFFE, 0, 0]),
];

pub fn cases(lines: &mut Lines) {
    for (first, fields) in NAMED {
        one(lines, first, fields, 3);
    }
    for form in 0..original::FORMS {
        let firsts = original::firsts(form);
        let size = original::size(form);
        let (lowest, highest) = (firsts[0], firsts[firsts.len() - 1]);
        let low = paper::numbers(form, |kind| *kind.fields().start());
        let high = paper::numbers(form, |kind| *kind.fields().end());
        one(lines, highest, low, size);
        if !paper::kinds(form).is_empty() {
            one(lines, lowest, high, 3);
        }
        if size > 1 {
            one(lines, highest, paper::numbers(form, between), 8);
        }
    }
}

/// A number whose bytes differ from one another.
fn between(kind: Kind) -> i32 {
    match kind {
        Kind::Immediate => 0x5A,
        Kind::Cell => 0x10D,
        Kind::Bit => 5,
        Kind::Register => 2,
        Kind::Short => -2,
        Kind::Page => 0xA35,
        Kind::Wrapping | Kind::Whole => 0x1234,
    }
}

fn one(lines: &mut Lines, first: u8, fields: [i32; 3], room: usize) {
    let [a, b, c] = fields.map(i64::from);
    let bytes = original::encode(original::form(first), fields);
    let mut values = vec![bytes.len() as i64];
    values.extend(bytes.iter().map(|byte| i64::from(*byte)));
    let inputs = [i64::from(first), a, b, c, room as i64];
    lines.case('E', inputs, Answer::new(Answer::DONE, &values));
}
