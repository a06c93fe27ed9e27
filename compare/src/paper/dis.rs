//! The program for game files, which is ours and of no document: what its words ask for, and the listing or the message that it
//! prints, written out a second time and plainly from crates/dis_text/specs.

use super::input::MOST_ENTRIES;
use super::listing::{self, Arrivals};
use super::{Mode, tracer};
use crate::answer::Answer;

/// Where no entry is asked: those that the original's `disassemble_cmd` takes for a game.
const GAME: [u32; 12] = [
    0x000, 0x003, 0x00B, 0x013, 0x01B, 0x023, 0x02B, 0x033, 0x03B, 0x043, 0x04B, 0x130,
];
/// As many pins as entries.
pub const MOST: usize = MOST_ENTRIES;
/// The number of the first word: the file's name has 1.
const FIRST: usize = 2;

pub struct Asked {
    /// None stands for those of a game.
    pub entries: Vec<u32>,
    pub pins: Vec<u32>,
    pub mode: Mode,
    pub arrivals: Arrivals,
}

/// What is printed: the first on standard output, the second on standard error.
#[derive(Clone, PartialEq, Debug)]
pub enum Dis {
    Listing(String),
    Message(String),
}

/// The whole output for these words, each ended by byte 0.
pub fn output(words: &[u8], image: &[u8]) -> Dis {
    match listed(words, image) {
        Ok(listing) => Dis::Listing(listing),
        Err(refusal) => Dis::Message(message(&refusal)),
    }
}

/// The listing, or the refusal: 13 of a word before 1 and 5 of the image.
pub fn listed(words: &[u8], image: &[u8]) -> Result<String, Answer> {
    let bad = |number: usize| Answer::new(Answer::MALFORMED_INPUT, &[number as i64]);
    asked(words).map_err(bad)?.listing(image)
}

fn message(refusal: &Answer) -> String {
    let (number, values) = (refusal.number, refusal.values);
    let reason = match number {
        Answer::LONG_IMAGE => format!("the file is longer than {} bytes", tracer::LONGEST),
        Answer::CUT_OFF => format!(
            "the file ends inside the instruction at {:04X}, bytes missing: {}",
            values[0], values[2]
        ),
        Answer::MALFORMED_INPUT => format!("not understood: argument {}", values[0]),
        _ => panic!("a run in rooms of its image's length has no other refusal: {number}"),
    };
    format!("dis: {number}: {reason}\n")
}

impl Asked {
    fn nothing() -> Asked {
        Asked {
            entries: vec![],
            pins: vec![],
            mode: Mode::Unwrapped,
            arrivals: Arrivals::DEFAULT,
        }
    }

    pub fn all_entries(&self) -> &[u32] {
        match self.entries[..] {
            [] => &GAME,
            _ => &self.entries,
        }
    }

    /// By a run with the image's length as its limit.
    fn listing(&self, image: &[u8]) -> Result<String, Answer> {
        let (length, entries) = (image.len(), self.all_entries());
        let (mut marks, mut order) = (vec![0; length], vec![0; length]);
        let (mode, pins, limit) = (self.mode, &self.pins, length as u32);
        let answer = tracer::run(mode, image, &mut marks, &mut order, entries, pins, limit);
        match answer.done() {
            true => Ok(listing::listing(mode, image, &marks, self.arrivals)),
            false => Err(answer),
        }
    }
}

/// What all words ask for, or the number of the first that may not stand where it stands.
pub fn asked(words: &[u8]) -> Result<Asked, usize> {
    let mut asked = Asked::nothing();
    let mut words = cut(words).into_iter().zip(FIRST..);
    while let Some((word, number)) = words.next() {
        match word {
            b"--wrapping" => asked.mode = Mode::Wrapping,
            b"--no-arrivals" => asked.arrivals = Arrivals::Declined,
            b"--pin" => {
                let (pin, number) = words.next().ok_or(number + 1)?;
                put(pin, &mut asked.pins).ok_or(number)?;
            }
            entry => put(entry, &mut asked.entries).ok_or(number)?,
        }
    }
    Ok(asked)
}

/// The last word may lack its byte 0.
fn cut(words: &[u8]) -> Vec<&[u8]> {
    let mut words: Vec<&[u8]> = words.split(|byte| *byte == 0).collect();
    if words.last() == Some(&&b""[..]) {
        words.pop();
    }
    words
}

/// A number more in a list, if the word is one and the list is not full.
fn put(word: &[u8], list: &mut Vec<u32>) -> Option<()> {
    let number = number(word)?;
    (list.len() < MOST).then(|| list.push(number))
}

/// One to four hex digits, of either case.
fn number(word: &[u8]) -> Option<u32> {
    let digits = (1..=4).contains(&word.len()) && word.iter().all(u8::is_ascii_hexdigit);
    let text = str::from_utf8(word).ok().filter(|_| digits)?;
    u32::from_str_radix(text, 16).ok()
}
