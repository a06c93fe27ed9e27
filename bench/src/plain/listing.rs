//! The listing, as tabbed text.

use super::decode::{Instruction, decode};
use super::forms::{FORMS, Flow, MNEMONICS, Shape};
use super::trace::{UNFOLLOWED, is_traced, named};
use super::views;

const DIGITS: &[u8; 16] = b"0123456789ABCDEF";

/// A writer with the memory that it uses again from one listing to the next.
#[derive(Default)]
pub struct Lister {
    pub text: Vec<u8>,
    mask: Vec<u8>,
    labels: Vec<u8>,
    overlaps: Vec<u32>,
    /// A target and where control comes from, sorted.
    arrivals: Vec<(u32, u32)>,
}

impl Lister {
    pub fn list(&mut self, image: &[u8], marks: &[u8], arrivals: bool) {
        self.text.clear();
        views::mask(image, marks, &mut self.mask);
        views::target_marks(image, marks, &mut self.labels);
        self.arrivals.clear();
        if arrivals {
            self.collect(image, marks);
        }
        let mut arrived = 0;
        let mut at = 0;
        while at < image.len() {
            if is_traced(marks[at]) {
                arrived = self.code(image, marks, at, arrived);
                at += 1;
            } else if self.mask[at] == 0 {
                at += self.data(image, at);
            } else {
                at += 1;
            }
        }
    }

    fn collect(&mut self, image: &[u8], marks: &[u8]) {
        for at in 0..image.len() {
            if !is_traced(marks[at]) || marks[at] == UNFOLLOWED {
                continue;
            }
            let form = FORMS[image[at] as usize];
            let next = (at + form.size as usize) as i64;
            let goes_on = matches!(form.flow, Flow::Next | Flow::Branch).then_some(next);
            let target = named(image, at, form);
            for to in target
                .into_iter()
                .chain(goes_on.filter(|_| target != Some(next)))
            {
                if (0..image.len() as i64).contains(&to) {
                    self.arrivals.push((to as u32, at as u32));
                }
            }
        }
        self.arrivals.sort_unstable();
    }

    /// The lines of a traced position. `arrived` is the first of the arrivals that may be its own.
    fn code(&mut self, image: &[u8], marks: &[u8], at: usize, mut arrived: usize) -> usize {
        if self.labels[at] == 1 {
            self.start(b'L', at);
            self.text.push(b'\n');
        }
        views::overlaps(image, marks, at, &mut self.overlaps);
        if !self.overlaps.is_empty() {
            self.start(b'O', at);
            for place in &self.overlaps {
                self.text.push(b'\t');
                hex4(&mut self.text, *place);
            }
            self.text.push(b'\n');
        }
        arrived = self.arrived(at, arrived);
        if let Ok(instruction) = decode(&image[at..]) {
            self.instruction(image, at, instruction);
        }
        arrived
    }

    /// The line of arrivals, if there are any: the first of them that may be another position's.
    fn arrived(&mut self, at: usize, mut arrived: usize) -> usize {
        while self
            .arrivals
            .get(arrived)
            .is_some_and(|(to, _)| (*to as usize) < at)
        {
            arrived += 1;
        }
        if self
            .arrivals
            .get(arrived)
            .is_some_and(|(to, _)| *to as usize == at)
        {
            self.start(b'A', at);
            while let Some((to, from)) = self.arrivals.get(arrived)
                && *to as usize == at
            {
                self.text.push(b'\t');
                hex4(&mut self.text, *from);
                arrived += 1;
            }
            self.text.push(b'\n');
        }
        arrived
    }

    fn instruction(&mut self, image: &[u8], at: usize, instruction: Instruction) {
        self.start(b'I', at);
        self.text.push(b'\t');
        for byte in &image[at..at + instruction.size as usize] {
            hex2(&mut self.text, *byte);
        }
        self.text.push(b'\t');
        let mnemonic = MNEMONICS[instruction.form as usize];
        self.text.extend_from_slice(mnemonic.as_bytes());
        self.operands(image, at, instruction.operands);
        self.text.push(b'\n');
    }

    fn operands(&mut self, image: &[u8], at: usize, [a, b, _]: [i32; 3]) {
        let form = FORMS[image[at] as usize];
        let target = named(image, at, form).unwrap_or(0);
        let text = &mut self.text;
        match form.shape {
            Shape::Bare => (),
            Shape::Imm => immediate(text, a),
            Shape::D9 => cell(text, a),
            Shape::Ri => register(text, a),
            Shape::ImmD9 => {
                immediate(text, a);
                cell(text, b);
            }
            Shape::ImmRi => {
                immediate(text, a);
                register(text, b);
            }
            Shape::D9B3 => {
                cell(text, a);
                bit(text, b);
            }
            Shape::A12 | Shape::A16 | Shape::R16 | Shape::R8 => address(text, target),
            shape => branch(text, shape, [a, b], target),
        }
    }

    /// The run of data at a position: its length.
    fn data(&mut self, image: &[u8], at: usize) -> usize {
        let length = views::data_run(image, &self.mask, at);
        let run = &image[at..at + length];
        if run.iter().any(|byte| *byte != 0) {
            self.start(b'D', at);
            self.text.push(b'\t');
            for byte in run {
                hex2(&mut self.text, *byte);
            }
            self.text.push(b'\n');
        }
        length
    }

    fn start(&mut self, letter: u8, at: usize) {
        self.text.push(letter);
        self.text.push(b'\t');
        hex4(&mut self.text, at as u32);
    }
}

/// The operands of a conditional branch.
fn branch(text: &mut Vec<u8>, shape: Shape, [a, b]: [i32; 2], target: i64) {
    match shape {
        Shape::D9B3R8 => {
            cell(text, a);
            bit(text, b);
        }
        Shape::D9R8 => cell(text, a),
        Shape::ImmR8 => immediate(text, a),
        Shape::RiImmR8 => {
            register(text, a);
            immediate(text, b);
        }
        _ => register(text, a),
    }
    address(text, target);
}

fn digit(text: &mut Vec<u8>, number: u32) {
    text.push(DIGITS[number as usize % 16]);
}

pub(super) fn hex2(text: &mut Vec<u8>, byte: u8) {
    digit(text, u32::from(byte) >> 4);
    digit(text, u32::from(byte));
}

fn hex4(text: &mut Vec<u8>, number: u32) {
    digit(text, number >> 12);
    digit(text, number >> 8);
    digit(text, number >> 4);
    digit(text, number);
}

fn immediate(text: &mut Vec<u8>, number: i32) {
    text.extend_from_slice(b"\t#");
    hex2(text, number as u8);
}

fn cell(text: &mut Vec<u8>, number: i32) {
    text.push(b'\t');
    digit(text, number as u32 >> 8);
    hex2(text, number as u8);
}

fn register(text: &mut Vec<u8>, number: i32) {
    text.extend_from_slice(b"\t@R");
    digit(text, number as u32);
}

fn bit(text: &mut Vec<u8>, number: i32) {
    text.push(b'\t');
    digit(text, number as u32);
}

fn address(text: &mut Vec<u8>, target: i64) {
    text.push(b'\t');
    match target {
        0..=65_535 => hex4(text, target as u32),
        _ => text.push(b'?'),
    }
}
