//! A log in blocks by document 02's W11, written out plainly: byte by byte, each line judged at its byte 10 or its seventh
//! byte.

use super::replay::{By, Traced};
use crate::answer::Answer;

/// The bytes of a line.
const LINE: usize = 7;

/// What is known between two blocks.
#[derive(Clone, Default)]
pub struct Blocks {
    lines: i64,
    interrupts: i64,
    free: i64,
    last: Option<usize>,
    refusal: Option<u32>,
    partial: Vec<u8>,
}

impl Blocks {
    pub fn take(&mut self, traced: Traced, block: &[u8], counts: &mut [u64]) -> Answer {
        if self.refusal.is_none() {
            if let Some(refusal) = traced.refusal(counts) {
                return refusal;
            }
            for byte in block {
                self.byte(traced, *byte, counts);
            }
        }
        self.answer(self.refusal)
    }

    /// At the end of the log.
    pub fn close(&self) -> Answer {
        let partial = (!self.partial.is_empty()).then_some(Answer::MALFORMED_LOG);
        self.answer(self.refusal.or(partial))
    }

    fn answer(&self, refusal: Option<u32>) -> Answer {
        match refusal {
            Some(number) => Answer::new(number, &[self.lines + 1]),
            None => Answer::new(Answer::DONE, &[self.lines, self.interrupts, self.free]),
        }
    }

    fn byte(&mut self, traced: Traced, byte: u8, counts: &mut [u64]) {
        if self.refusal.is_some() {
            return;
        }
        self.partial.push(byte);
        if byte == b'\n' || self.partial.len() == LINE {
            let line = std::mem::take(&mut self.partial);
            match traced.line(self.last, &line, counts) {
                Err(number) => self.refusal = Some(number),
                Ok((at, by)) => {
                    counts[at] += 1;
                    self.lines += 1;
                    self.interrupts += i64::from(by == By::Interrupt);
                    self.free += i64::from(by == By::Free);
                    self.last = Some(at);
                }
            }
        }
    }
}
