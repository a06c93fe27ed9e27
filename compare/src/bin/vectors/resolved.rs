//! Resolve: every form at its limits, each operand on both sides of its limits, two failures at once,
//! and the bases at the ends of memory.

use crate::Lines;
use compare::original::{self, Resolver};
use compare::paper::{self, Kind};

/// A base in the middle of a page, from which short offsets stay within it.
const BASE: u32 = 0x5678;

/// The cases that document 01 names: a form's first byte, an address and a base.
const NAMED: [(u8, i32, u32); 7] = [
    (0x11, 0, 3),
    (0x01, 129, 2),
    (0x01, 130, 2),
    (0x28, 0x0FFF, 2),
    (0x28, 0x1000, 2),
    (0x28, 65_536, 2),
    (0x01, 65_536, 2),
];

pub fn cases(lines: &mut Lines) {
    let mut cases = Cases {
        lines,
        resolver: Resolver::new(),
    };
    for (first, address, base) in NAMED {
        cases.one(first, [address, 0, 0], base);
    }
    for form in 0..original::FORMS {
        cases.limits(form);
        cases.two_failures(form);
    }
    for first in [0x01, 0x11, 0x28, 0x21] {
        cases.ends_of_memory(first);
    }
}

struct Cases<'a> {
    lines: &'a mut Lines,
    resolver: Resolver,
}

impl Cases<'_> {
    /// All operands at their lowest, all at their highest, then each just past them.
    fn limits(&mut self, form: usize) {
        let first = original::firsts(form)[0];
        let (lowest, highest) = (paper::numbers(form, lowest), paper::numbers(form, highest));
        self.one(first, lowest, BASE);
        self.one(first, highest, BASE);
        for (index, kind) in paper::kinds(form).iter().enumerate() {
            self.one(first, with(lowest, index, lowest[index] - 1), BASE);
            self.one(first, with(highest, index, highest[index] + 1), BASE);
            if kind.is_address() {
                self.one(first, with(lowest, index, -1), BASE);
                self.one(first, with(highest, index, 65_536), BASE);
            }
        }
    }

    /// The first failure is to be named.
    fn two_failures(&mut self, form: usize) {
        let first = original::firsts(form)[0];
        for index in 1..paper::kinds(form).len() {
            let mut wrong = paper::numbers(form, lowest);
            wrong[index - 1] = i32::MAX;
            wrong[index] = i32::MIN;
            self.one(first, wrong, BASE);
        }
    }

    fn ends_of_memory(&mut self, first: u8) {
        for (address, base) in [
            (0, 0),
            (65_535, 65_536),
            (0, 65_536),
            (61_439, 61_440),
            (-1, 65_536),
            (i32::MIN, 0),
            (i32::MAX, 65_536),
        ] {
            self.one(first, [address, 0, 0], base);
        }
    }

    /// Leaves out what the original cannot be asked.
    fn one(&mut self, first: u8, operands: [i32; 3], base: u32) {
        let form = original::form(first);
        if paper::original_has(form, operands, base) {
            let [a, b, c] = operands.map(i64::from);
            let answer = self.resolver.resolve(form, operands, base);
            let inputs = [i64::from(first), a, b, c, i64::from(base)];
            self.lines.case('R', inputs, answer);
        }
    }
}

/// The lowest operand that is taken at `BASE`.
fn lowest(kind: Kind) -> i32 {
    match kind {
        Kind::Short => BASE as i32 - 128,
        Kind::Page => 0x5000,
        Kind::Wrapping | Kind::Whole => 0,
        _ => *kind.fields().start(),
    }
}

/// The highest operand that is taken at `BASE`.
fn highest(kind: Kind) -> i32 {
    match kind {
        Kind::Short => BASE as i32 + 127,
        Kind::Page => 0x5FFF,
        Kind::Wrapping | Kind::Whole => 65_535,
        _ => *kind.fields().end(),
    }
}

fn with(mut operands: [i32; 3], index: usize, value: i32) -> [i32; 3] {
    operands[index] = value;
    operands
}
