//! Runs and sweeps with a pin, by document 02. A line gives one entry and one pin, and each is told twice.

use crate::Lines;
use crate::packed::{self, LONGEST, OLD_MARK, OLD_PLACE};
use compare::paper::{Mode, sweep, tracer};

const NO_LIMIT: u32 = u32::MAX;

/// Images, each with entries and pins.
const NAMED: [(&[u8], &[(u32, u32)]); 5] = [
    // a table behind a call: its first position, one inside it, the entry, the target, past the image
    (
        &[0x20, 0x00, 0x06, 0x64, 0x65, 0x66, 0xA0],
        &[(0, 3), (0, 4), (0, 0), (0, 6), (0, 7), (0, 65_536), (3, 6)],
    ),
    // a target, and positions inside instructions
    (
        &[0x01, 0x02, 0x00, 0x41, 0x64, 0x80, 0xF9, 0xA0],
        &[(0, 4), (0, 1), (0, 6), (4, 0), (5, 7)],
    ),
    // two before a Jmpf after B8 0D, and the Jmpf
    (
        &[0xB8, 0x0D, 0x21, 0x00, 0x05, 0xA0],
        &[(2, 0), (0, 0), (0, 1), (0, 2), (2, 5)],
    ),
    // cut off, unless it is pinned
    (&[0x00, 0x68], &[(0, 1), (0, 0), (1, 1)]),
    // over the end, which is before the image in neither mode
    (&[0x01, 0x80, 0xA0], &[(0, 2), (0, 0)]),
];

pub fn cases(lines: &mut Lines) {
    for (image, lists) in NAMED {
        for (entry, pin) in lists {
            one(lines, image, *entry, *pin);
        }
    }
}

fn one(lines: &mut Lines, image: &[u8], entry: u32, pin: u32) {
    let (entries, pins) = ([entry; 2], [pin; 2]);
    let given = packed::given(image, [entry, pin]);
    for (run, swept, mode) in [('N', 'U', Mode::Unwrapped), ('n', 'u', Mode::Wrapping)] {
        let (mut marks, mut order) = ([OLD_MARK; LONGEST], [OLD_PLACE; LONGEST]);
        let answer = tracer::run(
            mode, image, &mut marks, &mut order, &entries, &pins, NO_LIMIT,
        );
        lines.case(run, given, packed::left(&answer, &order, &marks));
        let (mut marks, order) = ([OLD_MARK; LONGEST], [OLD_PLACE; LONGEST]);
        let answer = sweep::sweep(mode, image, &mut marks, &entries, &pins);
        lines.case(swept, given, packed::left(&answer, &order, &marks));
    }
}
