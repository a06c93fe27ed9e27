//! A listing read line by line.

use crate::{Mode, NO_LINE, PLACE_START, PLACE_WORDS, Refusal, numbers};

/// What a line of a listing begins with, and what stands on it.
#[derive(Clone, Copy, PartialEq, Eq, Hash, Debug)]
#[repr(u8)]
pub enum Letter {
    /// A position that a jump, branch or call names.
    Label = b'L',
    Overlaps = b'O',
    Arrivals = b'A',
    Instruction = b'I',
    Data = b'D',
}

impl Letter {
    /// In the order in which they stand at one position.
    pub const ALL: [Letter; 5] = [
        Letter::Label,
        Letter::Overlaps,
        Letter::Arrivals,
        Letter::Instruction,
        Letter::Data,
    ];

    /// None where no line begins with the byte.
    pub fn of(byte: u8) -> Option<Letter> {
        Letter::ALL.into_iter().find(|letter| *letter as u8 == byte)
    }
}

/// What a line says.
#[derive(Clone, Copy, PartialEq, Eq, Debug)]
pub struct Line {
    pub letter: Letter,
    pub position: u32,
    /// How many positions (overlaps, arrivals) or bytes (instruction, data) follow.
    pub count: usize,
}

/// Where a line begins, and what the order of lines asks. Its numbers may be read by [`PLACE_AT`](crate::PLACE_AT) and the names beside it.
#[derive(Clone, Copy, PartialEq, Eq, Debug)]
pub struct Place(pub [u64; PLACE_WORDS]);

impl Place {
    /// The first line of a text.
    pub const START: Place = Place(PLACE_START);

    /// What the line here says, and then this is the place of the next; none where no line is left.
    #[inline]
    pub fn read_line(&mut self, mode: Mode, text: &[u8]) -> Result<Option<Line>, Refusal> {
        let [letter, position, count, ..] =
            numbers::read_line(mode as u32, text, &mut self.0).told()?;
        if letter == NO_LINE {
            return Ok(None);
        }
        Ok(Some(Line {
            letter: Letter::of(letter as u8).expect("the letter of a line"),
            position: position as u32,
            count: count as usize,
        }))
    }
}
