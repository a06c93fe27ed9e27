//! A log replayed over marks: one pass, and a table that says of each position whether it is an entry.

use super::trace::{UNFOLLOWED, is_traced, leads};

pub const LINE: usize = 7;
const RET: u8 = 0xA0;
const RETI: u8 = 0xB0;

#[derive(Clone, Copy, Default, PartialEq, Debug)]
pub struct Totals {
    pub lines: u64,
    pub interrupts: u64,
    pub free: u64,
}

/// The line's number, and of damage the position.
#[derive(Clone, Copy, PartialEq, Debug)]
pub enum Refused {
    Damaged(usize),
    Malformed(u64),
    Untraced(u64),
    Forbidden(u64),
    Full(u64),
}

/// What is known after some lines.
#[derive(Default)]
pub struct State {
    pub totals: Totals,
    last: Option<usize>,
}

pub struct Replayer {
    is_entry: Vec<bool>,
}

impl Default for Replayer {
    fn default() -> Replayer {
        Replayer {
            is_entry: vec![false; pottagewing::IMAGE_LIMIT],
        }
    }
}

impl Replayer {
    /// Adds the log to the counts, or leaves them.
    pub fn replay(
        &mut self,
        text: &[u8],
        image: &[u8],
        marks: &[u8],
        entries: &[u32],
        counts: &mut [u64],
    ) -> Result<Totals, Refused> {
        self.enter(entries);
        let mut state = State::default();
        let done = self.lines(text, image, marks, counts, &mut state);
        if done.is_err() {
            let taken = text.chunks_exact(LINE).take(state.totals.lines as usize);
            taken
                .filter_map(position)
                .for_each(|at| counts[at as usize] -= 1);
        }
        done.map(|()| state.totals)
    }

    pub fn enter(&mut self, entries: &[u32]) {
        self.is_entry.fill(false);
        for entry in entries {
            if let Some(is_entry) = self.is_entry.get_mut(*entry as usize) {
                *is_entry = true;
            }
        }
    }

    /// Adds lines to the counts up to a refused one.
    pub fn lines(
        &self,
        text: &[u8],
        image: &[u8],
        marks: &[u8],
        counts: &mut [u64],
        state: &mut State,
    ) -> Result<(), Refused> {
        for line in text.chunks(LINE) {
            let number = state.totals.lines + 1;
            let at = position(line).ok_or(Refused::Malformed(number))?;
            if !marks.get(at as usize).is_some_and(|mark| is_traced(*mark)) {
                return Err(Refused::Untraced(number));
            }
            if let Some(last) = state.last
                && !leads(image, marks, last, at as usize)
            {
                if self.is_entry[at as usize] {
                    state.totals.interrupts += 1;
                } else if is_free_after(image, marks, last) {
                    state.totals.free += 1;
                } else {
                    return Err(Refused::Forbidden(number));
                }
            }
            let count = &mut counts[at as usize];
            *count = count.checked_add(1).ok_or(Refused::Full(number))?;
            state.totals.lines = number;
            state.last = Some(at as usize);
        }
        Ok(())
    }
}

/// The position that a whole line tells.
fn position(line: &[u8]) -> Option<u16> {
    let [b'P', b'\t', a, b, c, d, b'\n'] = *line else {
        return None;
    };
    Some(digit(a)? << 12 | digit(b)? << 8 | digit(c)? << 4 | digit(d)?)
}

fn digit(byte: u8) -> Option<u16> {
    match byte {
        b'0'..=b'9' => Some(u16::from(byte - b'0')),
        b'A'..=b'F' => Some(u16::from(byte - b'A') + 10),
        _ => None,
    }
}

fn is_free_after(image: &[u8], marks: &[u8], last: usize) -> bool {
    matches!(image[last], RET | RETI) || marks[last] == UNFOLLOWED
}
