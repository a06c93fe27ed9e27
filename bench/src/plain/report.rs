//! The term report: one pass over the text, one image at a time.

use super::forms::FORMS;
use super::input::Input;
use super::trace::{Ended, Tracer, is_exempt, is_traced, named};
use pottagewing::{Answer, LONGEST_NAME};
use std::io::Write;

const CUT_OFF: u32 = Answer::CUT_OFF;
const MALFORMED: u32 = Answer::MALFORMED_INPUT;

/// What the next line of an image is.
#[derive(Clone, Copy, PartialEq)]
enum Next {
    Name,
    Entries,
    Bytes,
    /// The image is malformed, and the line is skipped.
    Skipped,
}

/// A reporter with the memory that it uses again from one image to the next.
#[derive(Default)]
pub struct Reporter {
    pub printed: Vec<u8>,
    name: Vec<u8>,
    input: Input,
    tracer: Tracer,
    /// How many instructions have a byte.
    over: Vec<u8>,
    is_named: Vec<bool>,
    sums: [u64; 6],
    accepted: u64,
    refused: u64,
}

impl Reporter {
    /// The sums of a text in memory fit.
    pub fn report(&mut self, text: &[u8]) {
        self.printed.clear();
        (self.sums, self.accepted, self.refused) = ([0; 6], 0, 0);
        let mut next = Next::Name;
        for line in text.split(|byte| *byte == b'\n') {
            next = match (next, line) {
                (Next::Name, b"") => Next::Name,
                (_, b"") => {
                    self.end(next);
                    Next::Name
                }
                (Next::Name, _) => self.begin(line),
                (Next::Entries, b"-") => Next::Bytes,
                (Next::Entries, _) if self.input.read_entries(line) => Next::Bytes,
                (Next::Bytes, _) if self.input.read_bytes(line) => Next::Bytes,
                _ => Next::Skipped,
            };
        }
        if next != Next::Name {
            self.end(next);
        }
        let counts = [self.accepted, self.refused];
        self.printed.push(b'T');
        self.numbers(&self.sums.clone());
        self.numbers(&counts);
        self.printed.push(b'\n');
    }

    fn begin(&mut self, line: &[u8]) -> Next {
        self.name.clear();
        self.input.clear();
        match line.strip_prefix(b"N\t") {
            Some(name)
                if (1..=LONGEST_NAME).contains(&name.len())
                    && name.iter().all(u8::is_ascii_alphanumeric) =>
            {
                self.name.extend(name);
                Next::Entries
            }
            _ => {
                self.name.push(b'-');
                Next::Skipped
            }
        }
    }

    fn end(&mut self, next: Next) {
        let Input { entries, image } = &self.input;
        match next {
            Next::Skipped => self.refuse(MALFORMED),
            _ => match self.tracer.run(image, entries, image.len()) {
                Ended::CutOff(..) => self.refuse(CUT_OFF),
                _ => self.accept(),
            },
        }
    }

    fn refuse(&mut self, number: u32) {
        self.refused += 1;
        self.printed.extend(&self.name);
        writeln!(self.printed, "\tR\t{number}").expect("a vector takes any text");
    }

    fn accept(&mut self) {
        self.accepted += 1;
        let figures = self.figures();
        for (sum, figure) in self.sums.iter_mut().zip(figures) {
            *sum += figure;
        }
        self.printed.extend(&self.name);
        self.numbers(&figures);
        self.printed.push(b'\n');
    }

    fn numbers(&mut self, numbers: &[u64]) {
        for number in numbers {
            write!(self.printed, "\t{number}").expect("a vector takes any text");
        }
    }

    fn figures(&mut self) -> [u64; 6] {
        let (image, marks) = (&self.input.image, &self.tracer.marks);
        let length = image.len();
        self.over.clear();
        self.over.resize(length, 0);
        self.is_named.clear();
        self.is_named.resize(length, false);
        let mut targets = 0;
        for at in (0..length).filter(|at| is_traced(marks[*at])) {
            let form = FORMS[image[at] as usize];
            for count in &mut self.over[at..at + form.size as usize] {
                *count += 1;
            }
            if let Some(target) = named(image, at, form)
                && let Some(is_named) = self.is_named.get_mut(target as usize)
                && !*is_named
                && !is_exempt(image, marks, at)
            {
                *is_named = true;
                targets += 1;
            }
        }
        let code = self.over.iter().filter(|count| **count > 0).count();
        let shared = self.over.iter().filter(|count| **count > 1).count();
        let counts = [
            length,
            self.tracer.steps,
            code,
            length - code,
            shared,
            targets,
        ];
        counts.map(|count| count as u64)
    }
}
