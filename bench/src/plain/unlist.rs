//! The program that turns a listing back into the lines of an image, or into the line of a refusal.

use super::back::{Reader, Refused};
use super::listing::hex2;
use pottagewing::{Answer, MOST_IN_LINE};
use std::io::Write;

/// With the memory that it uses again from one listing to the next.
#[derive(Default)]
pub struct Program {
    reader: Reader,
    image: Vec<u8>,
    marks: Vec<u8>,
    printed: Vec<u8>,
}

impl Program {
    /// What is printed of a listing of an image of so many bytes.
    pub fn unlist(&mut self, text: &[u8], length: usize) -> &[u8] {
        self.image.resize(length, 0);
        self.marks.resize(length, 0);
        self.printed.clear();
        match self.reader.read(text, &mut self.image, &mut self.marks) {
            Ok(_) => self.lines(),
            Err(Refused::Malformed(line)) => self.refuse(Answer::MALFORMED_LINE, line),
            Err(Refused::PastEnd(line)) => self.refuse(Answer::LINE_PAST_END, line),
        }
        &self.printed
    }

    fn lines(&mut self) {
        for line in self.image.chunks(MOST_IN_LINE) {
            line.iter().for_each(|byte| hex2(&mut self.printed, *byte));
            self.printed.push(b'\n');
        }
    }

    fn refuse(&mut self, number: u32, line: usize) {
        writeln!(self.printed, "R\t{number}\t{line}").expect("a vector takes any text");
    }
}
