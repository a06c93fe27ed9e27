//! The tracer: one mark a position, and a worklist that is taken first come, first served.

use super::forms::{FORMS, Flow, Form, Shape};
use pottagewing::Mark;

pub const UNTOUCHED: u8 = Mark::Untouched as u8;
pub const WAITING: u8 = Mark::Waiting as u8;
pub const TRACED: u8 = Mark::Traced as u8;
/// A traced Jmpf that is not followed.
pub const UNFOLLOWED: u8 = Mark::Flash as u8;
pub const PINNED: u8 = Mark::Pinned as u8;

pub const JMPF: u8 = 0x21;

#[derive(Clone, Copy, PartialEq, Debug)]
pub enum Ended {
    Finished,
    Stopped,
    /// The position, the first byte, and how many bytes are missing.
    CutOff(u32, u8, u8),
}

#[derive(Default)]
pub struct Tracer {
    pub marks: Vec<u8>,
    /// The positions noted, in their order; the first `steps` are taken up.
    pub order: Vec<u32>,
    pub steps: usize,
}

impl Tracer {
    pub fn run(&mut self, image: &[u8], entries: &[u32], limit: usize) -> Ended {
        self.marks.clear();
        self.marks.resize(image.len(), UNTOUCHED);
        self.order.clear();
        self.steps = 0;
        for entry in entries {
            self.note(i64::from(*entry));
        }
        while self.steps < self.order.len() {
            if self.steps == limit {
                return Ended::Stopped;
            }
            let at = self.order[self.steps] as usize;
            let form = FORMS[image[at] as usize];
            let next = at + form.size as usize;
            if next > image.len() {
                return Ended::CutOff(at as u32, image[at], (next - image.len()) as u8);
            }
            self.take_up(image, at, form, next);
            self.steps += 1;
        }
        Ended::Finished
    }

    fn take_up(&mut self, image: &[u8], at: usize, form: Form, next: usize) {
        if is_exempt(image, &self.marks, at) {
            self.marks[at] = UNFOLLOWED;
            return;
        }
        self.marks[at] = TRACED;
        if let Some(target) = named(image, at, form) {
            self.note(target);
        }
        if matches!(form.flow, Flow::Next | Flow::Branch) {
            self.note(next as i64);
        }
    }

    fn note(&mut self, position: i64) {
        if note(&mut self.marks, position) {
            self.order.push(position as u32);
        }
    }
}

/// Whether a position becomes waiting.
pub fn note(marks: &mut [u8], position: i64) -> bool {
    match marks.get_mut(position as usize) {
        Some(mark) if *mark == UNTOUCHED => {
            *mark = WAITING;
            true
        }
        _ => false,
    }
}

/// Of marks without pins.
pub fn is_traced(mark: u8) -> bool {
    mark >= TRACED
}

/// Whether a Jmpf stands there after B8 0D, the first of which is traced.
pub fn is_exempt(image: &[u8], marks: &[u8], at: usize) -> bool {
    image[at] == JMPF
        && at >= 2
        && image[at - 2] == 0xB8
        && image[at - 1] == 0x0D
        && is_traced(marks[at - 2])
}

/// Whether control came from a traced position to another.
pub fn leads(image: &[u8], marks: &[u8], from: usize, to: usize) -> bool {
    if marks[from] == UNFOLLOWED {
        return false;
    }
    let form = FORMS[image[from] as usize];
    let goes_on = matches!(form.flow, Flow::Next | Flow::Branch);
    goes_on && from + form.size as usize == to || named(image, from, form) == Some(to as i64)
}

/// The target of a whole jump, branch or call.
pub fn named(image: &[u8], at: usize, form: Form) -> Option<i64> {
    if matches!(form.flow, Flow::Stop | Flow::Next) {
        return None;
    }
    let bytes = &image[at..at + form.size as usize];
    let next = (at + bytes.len()) as i64;
    let byte = |at: usize| i64::from(bytes[at]);
    Some(match form.shape {
        Shape::A12 => {
            let field = i64::from(bytes[0] >> 4 & 1) << 11 | i64::from(bytes[0] & 7) << 8 | byte(1);
            next & 0xF000 | field
        }
        Shape::A16 => byte(1) << 8 | byte(2),
        Shape::R16 => (next - 1 + (byte(2) << 8 | byte(1))) & 0xFFFF,
        _ => next + i64::from(bytes[bytes.len() - 1] as i8),
    })
}
