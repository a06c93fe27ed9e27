//! A log replayed by document 02's W10, written out plainly: the text is cut at each byte 10, and each line is judged by
//! what stands in the lent lists.

use super::{Mode, flow, input, tracer, views};
use crate::answer::Answer;
use crate::original;

/// What is lent beside the text and the counts.
#[derive(Clone, Copy)]
pub struct Traced<'a> {
    pub mode: Mode,
    pub image: &'a [u8],
    pub marks: &'a [u8],
    pub entries: &'a [u32],
}

/// How control comes to a line's position.
#[derive(Clone, Copy, PartialEq, Debug)]
pub enum By {
    /// The first line is no move.
    Beginning,
    Target,
    Interrupt,
    Free,
}

/// A log, line by line: those that are taken, and the refusal of the one after them.
pub struct Told {
    pub taken: Vec<(usize, By)>,
    pub refusal: Option<u32>,
}

/// What a log comes to, if what is lent is not refused.
pub fn told(traced: Traced, text: &[u8], counts: &[u64]) -> Result<Told, Answer> {
    if let Some(refusal) = traced.refusal(counts) {
        return Err(refusal);
    }
    let mut told = Told {
        taken: vec![],
        refusal: None,
    };
    let mut grown = counts.to_vec();
    for line in text.split_inclusive(|byte| *byte == b'\n') {
        let last = told.taken.last().map(|(at, _)| *at);
        match traced.line(last, line, &grown) {
            Err(number) => {
                told.refusal = Some(number);
                break;
            }
            Ok((at, by)) => {
                grown[at] += 1;
                told.taken.push((at, by));
            }
        }
    }
    Ok(told)
}

/// The whole log: what is answered, and the counts grown where it is not refused.
pub fn replay(traced: Traced, text: &[u8], counts: &mut [u64]) -> Answer {
    match told(traced, text, counts) {
        Err(refusal) => refusal,
        Ok(told) => {
            if told.refusal.is_none() {
                told.add_to(counts);
            }
            told.answer()
        }
    }
}

impl Told {
    pub fn answer(&self) -> Answer {
        let lines = self.taken.len() as i64;
        match self.refusal {
            Some(number) => Answer::new(number, &[lines + 1]),
            None => {
                let (interrupts, free) = (self.moves(By::Interrupt), self.moves(By::Free));
                Answer::new(Answer::DONE, &[lines, interrupts, free])
            }
        }
    }

    /// How many lines are come to so.
    pub fn moves(&self, how: By) -> i64 {
        self.taken.iter().filter(|(_, by)| *by == how).count() as i64
    }

    /// One more for each line that is taken.
    pub fn add_to(&self, counts: &mut [u64]) {
        self.taken.iter().for_each(|(at, _)| counts[*at] += 1);
    }
}

impl Traced<'_> {
    /// Refusals 1, 2, 6 and 11.
    pub fn refusal(&self, counts: &[u64]) -> Option<Answer> {
        let length = self.image.len();
        let short = || Answer::new(Answer::NO_ROOM, &[length as i64]);
        let lent = views::refusal(self.image, self.marks);
        lent.or_else(|| (counts.len() < length).then(short))
    }

    pub fn is_traced(&self, at: usize) -> bool {
        at < self.image.len() && tracer::is_traced(self.marks[at])
    }

    fn is_unfollowed(&self, at: usize) -> bool {
        self.marks[at] == tracer::UNFOLLOWED
    }

    /// The targets that a traced position had when it was taken up.
    pub fn targets(&self, at: usize) -> Vec<i64> {
        match self.is_unfollowed(at) {
            true => vec![],
            false => flow::targets_at(self.mode, self.image, at),
        }
    }

    /// Whether control may come to any traced position after one.
    pub fn is_free_after(&self, at: usize) -> bool {
        let name = original::name(original::form(self.image[at]));
        name == "Ret" || name == "Reti" || self.is_unfollowed(at)
    }

    /// How control comes from the last position, if it may. One that is not traced has no target and allows no free move.
    fn come(&self, last: usize, at: usize) -> Option<By> {
        let last = Some(last).filter(|last| self.is_traced(*last));
        if last.is_some_and(|last| self.targets(last).contains(&(at as i64))) {
            return Some(By::Target);
        }
        if self.entries.contains(&(at as u32)) {
            return Some(By::Interrupt);
        }
        let free = last.is_some_and(|last| self.is_free_after(last));
        free.then_some(By::Free)
    }

    /// A line after the last position, if there was one: its own position, or its refusal.
    pub fn line(
        &self,
        last: Option<usize>,
        line: &[u8],
        counts: &[u64],
    ) -> Result<(usize, By), u32> {
        let [b'P', b'\t', digits @ .., b'\n'] = line else {
            return Err(Answer::MALFORMED_LOG);
        };
        let at = input::position(digits).ok_or(Answer::MALFORMED_LOG)? as usize;
        if !self.is_traced(at) {
            return Err(Answer::NOT_TRACED);
        }
        let by = match last {
            None => By::Beginning,
            Some(last) => self.come(last, at).ok_or(Answer::FORBIDDEN_MOVE)?,
        };
        match counts[at] {
            u64::MAX => Err(Answer::COUNT_FULL),
            _ => Ok((at, by)),
        }
    }
}
