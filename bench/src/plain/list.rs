//! The listing program: a text in, a listing without arrivals out, or the line of a refusal.

use super::input::Input;
use super::listing::Lister;
use super::trace::{Ended, Tracer};
use pottagewing::Answer;
use std::io::Write;

/// With the memory that it uses again from one text to the next.
#[derive(Default)]
pub struct Program {
    input: Input,
    tracer: Tracer,
    lister: Lister,
}

impl Program {
    /// What is printed.
    pub fn list(&mut self, text: &[u8]) -> &[u8] {
        if self.input.read(text).is_err() {
            return self.refuse(format_args!("{}", Answer::MALFORMED_INPUT));
        }
        let Input { entries, image } = &self.input;
        if let Ended::CutOff(_, _, missing) = self.tracer.run(image, entries, image.len()) {
            return self.refuse(format_args!("{}\t{missing}", Answer::CUT_OFF));
        }
        self.lister.list(image, &self.tracer.marks, false);
        &self.lister.text
    }

    fn refuse(&mut self, words: std::fmt::Arguments) -> &[u8] {
        let text = &mut self.lister.text;
        text.clear();
        writeln!(text, "R\t{words}").expect("a vector takes any text");
        text
    }
}
