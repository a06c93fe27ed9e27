//! A log as a unit would write it: branches by chance, calls that are returned from, and interrupts now and then.

use crate::cases::Case;
use crate::plain::forms::{FORMS, Flow};
use crate::plain::replay::{LINE, Refused, Replayer, Totals};
use crate::plain::trace::{UNFOLLOWED, is_traced, named};
use crate::rows::MODE;
use compare::paper::replay::Traced;
use compare::random::Random;
use std::io::Write;

/// One move in so many is an interrupt.
const INTERRUPTS: u64 = 200;
/// And one in so many has nothing to come back to, so that no loop is stayed in.
const RESETS: u64 = 2_000;
/// The most places to return to.
const DEEPEST: usize = 64;

/// A log and what is lent with it.
pub struct Log {
    image: Vec<u8>,
    marks: Vec<u8>,
    entries: Vec<u32>,
    pub text: Vec<u8>,
}

impl Log {
    /// With so many entries, those of the trace first.
    pub fn new(case: &Case, lines: usize, count: usize, random: &mut Random) -> Log {
        let mut entries = case.entries.clone();
        while entries.len() < count {
            entries.push(random.pick(&case.order));
        }
        let mut log = Log {
            image: case.image.clone(),
            marks: case.marks.clone(),
            entries,
            text: Vec::with_capacity(lines * LINE),
        };
        log.walk(lines, random);
        log
    }

    /// Of the image.
    pub fn length(&self) -> usize {
        self.image.len()
    }

    pub fn lines(&self) -> usize {
        self.text.len() / LINE
    }

    pub fn traced(&self) -> Traced<'_> {
        Traced {
            mode: MODE,
            image: &self.image,
            marks: &self.marks,
            entries: &self.entries,
        }
    }

    /// With another byte.
    pub fn changed(&self, at: usize, byte: u8) -> Log {
        let mut text = self.text.clone();
        text[at] = byte;
        Log {
            image: self.image.clone(),
            marks: self.marks.clone(),
            entries: self.entries.clone(),
            text,
        }
    }

    pub fn plain(&self, replayer: &mut Replayer, counts: &mut [u64]) -> Result<Totals, Refused> {
        let Log { image, marks, .. } = self;
        replayer.replay(&self.text, image, marks, &self.entries, counts)
    }

    fn walk(&mut self, lines: usize, random: &mut Random) {
        let mut returns = vec![];
        let mut at = self.entries[0] as usize;
        for _ in 0..lines {
            writeln!(self.text, "P\t{at:04X}").expect("memory takes all");
            let next = self.after(at, &mut returns, random);
            let entry = random.pick(&self.entries) as usize;
            at = next.unwrap_or(entry);
            if random.below(INTERRUPTS) == 0 {
                returns.push(at);
                at = entry;
            }
            if random.below(RESETS) == 0 {
                returns.clear();
                at = entry;
            }
            returns.truncate(DEEPEST);
        }
    }

    /// Where control goes: nothing where it comes back to nowhere.
    fn after(&self, at: usize, returns: &mut Vec<usize>, random: &mut Random) -> Option<usize> {
        let form = FORMS[self.image[at] as usize];
        let next = at + form.size as usize;
        if form.flow == Flow::Stop || self.marks[at] == UNFOLLOWED {
            return returns.pop();
        }
        let is_there = |at: &usize| self.marks.get(*at).is_some_and(|mark| is_traced(*mark));
        let named = named(&self.image, at, form).map(|target| target as usize);
        let named = named.filter(is_there);
        let onward = Some(next).filter(|next| form.flow != Flow::Jump && is_there(next));
        let is_call = matches!(self.image[at], 0x08..=0x10 | 0x18..=0x1F | 0x20);
        if is_call && named.is_some() {
            returns.extend(onward);
            return named;
        }
        match random.below(2) {
            0 => named.or(onward),
            _ => onward.or(named),
        }
    }
}
