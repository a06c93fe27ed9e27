//! A listing read back into an image and marks.

use super::decode::decode;
use super::digits::DIGITS;
use super::forms::{FORMS, MNEMONICS, Shape};
use super::trace::TRACED;

/// The most bytes on a `D` line, and of an instruction.
const RUN: usize = pottagewing::RUN_LENGTH;
const LONGEST: usize = pottagewing::INSTRUCTION_LENGTH;
/// The end of memory.
const MEMORY: usize = pottagewing::IMAGE_LIMIT;

/// The first bad line, counted from 1.
#[derive(Clone, Copy, PartialEq, Debug)]
pub enum Refused {
    Malformed(usize),
    PastEnd(usize),
}

/// A reader with the memory that it uses again from one listing to the next.
#[derive(Default)]
pub struct Reader {
    bytes: Vec<u8>,
    listed: Vec<bool>,
    marks: Vec<u8>,
}

/// Why a line is bad.
enum Bad {
    Form,
    End,
}

impl Reader {
    /// Fills image and marks, which are equally long, and answers the number of lines; or leaves them as they are.
    pub fn read(
        &mut self,
        text: &[u8],
        image: &mut [u8],
        marks: &mut [u8],
    ) -> Result<usize, Refused> {
        let length = image.len();
        self.bytes.clear();
        self.bytes.resize(length, 0);
        self.listed.clear();
        self.listed.resize(length, false);
        self.marks.clear();
        self.marks.resize(length, 0);
        let mut rest = Rest(text);
        let mut lines = 0;
        // The lowest that the next line's position and letter may be: the letter's rank is the lowest digit.
        let mut least = 0;
        while !rest.0.is_empty() {
            lines += 1;
            match self.line(&mut rest, least) {
                Ok(next) => least = next,
                Err(Bad::Form) => return Err(Refused::Malformed(lines)),
                Err(Bad::End) => return Err(Refused::PastEnd(lines)),
            }
        }
        image.copy_from_slice(&self.bytes);
        marks.copy_from_slice(&self.marks);
        Ok(lines)
    }

    /// One line: the least that may follow it.
    fn line(&mut self, rest: &mut Rest, least: usize) -> Result<usize, Bad> {
        let letter = rest.byte().ok_or(Bad::Form)?;
        let at = rest.place().ok_or(Bad::Form)?;
        let rank = match letter {
            b'L' => 1,
            b'O' => 2,
            b'A' => 3,
            b'I' => 4,
            // Alone at its position.
            b'D' => 0,
            _ => return Err(Bad::Form),
        };
        let now = at * 8 + rank;
        if now < least {
            return Err(Bad::Form);
        }
        match letter {
            b'L' => rest.end().ok_or(Bad::Form)?,
            b'O' | b'A' => rest.places().ok_or(Bad::Form)?,
            b'I' => {
                let mut bytes = [0; LONGEST];
                let count = rest.bytes(&mut bytes).ok_or(Bad::Form)?;
                rest.instruction(&bytes[..count], at).ok_or(Bad::Form)?;
                self.put(at, &bytes[..count])?;
                self.marks[at] = TRACED;
            }
            _ => {
                let mut bytes = [0; RUN];
                let count = rest.bytes(&mut bytes).ok_or(Bad::Form)?;
                rest.end().ok_or(Bad::Form)?;
                self.put(at, &bytes[..count])?;
            }
        }
        Ok(if rank == 0 { at * 8 + 8 } else { now + 1 })
    }

    /// Bytes that do not contradict those listed before and do not reach past the end.
    fn put(&mut self, at: usize, bytes: &[u8]) -> Result<(), Bad> {
        let from = at.min(self.bytes.len());
        let end = (at + bytes.len()).min(self.bytes.len());
        let known = self.bytes[from..end].iter().zip(&self.listed[from..end]);
        for ((known, listed), byte) in known.zip(bytes) {
            if *listed && known != byte {
                return Err(Bad::Form);
            }
        }
        if end - from < bytes.len() {
            return Err(Bad::End);
        }
        self.bytes[from..end].copy_from_slice(bytes);
        self.listed[from..end].fill(true);
        Ok(())
    }
}

/// The text that is not yet read.
struct Rest<'a>(&'a [u8]);

impl Rest<'_> {
    fn byte(&mut self) -> Option<u8> {
        let (first, rest) = self.0.split_first()?;
        self.0 = rest;
        Some(*first)
    }

    fn this(&mut self, text: &[u8]) -> Option<()> {
        self.0 = self.0.strip_prefix(text)?;
        Some(())
    }

    /// The end of a line, which the last may lack.
    fn end(&mut self) -> Option<()> {
        match self.byte() {
            None | Some(b'\n') => Some(()),
            _ => None,
        }
    }

    /// A number in as many digits.
    fn number<const N: usize>(&mut self) -> Option<usize> {
        let (digits, rest) = self.0.split_first_chunk::<N>()?;
        let mut number = 0;
        for digit in digits {
            let value = DIGITS[*digit as usize];
            if value > 15 {
                return None;
            }
            number = number << 4 | value as usize;
        }
        self.0 = rest;
        Some(number)
    }

    /// A tab and a position.
    fn place(&mut self) -> Option<usize> {
        self.this(b"\t")?;
        self.number::<4>()
    }

    /// One position or more, and the end.
    fn places(&mut self) -> Option<()> {
        self.place()?;
        while self.0.first() == Some(&b'\t') {
            self.place()?;
        }
        self.end()
    }

    /// A tab and one byte or more, as many as the room holds at most: their number.
    fn bytes(&mut self, room: &mut [u8]) -> Option<usize> {
        self.this(b"\t")?;
        let mut count = 0;
        while let Some(byte) = self.number::<2>() {
            *room.get_mut(count)? = byte as u8;
            count += 1;
        }
        (count > 0).then_some(count)
    }

    /// What follows the bytes of an instruction at a position, up to the line's end.
    fn instruction(&mut self, bytes: &[u8], at: usize) -> Option<()> {
        let instruction = decode(bytes).ok()?;
        let next = at + bytes.len();
        if instruction.size as usize != bytes.len() || next > MEMORY {
            return None;
        }
        self.this(b"\t")?;
        self.this(MNEMONICS[instruction.form as usize].as_bytes())?;
        let shape = FORMS[bytes[0] as usize].shape;
        self.operands(shape, instruction.operands, next as i32)?;
        self.end()
    }

    fn operands(&mut self, shape: Shape, [a, b, c]: [i32; 3], next: i32) -> Option<()> {
        match shape {
            Shape::Bare => Some(()),
            Shape::Imm => self.immediate(a),
            Shape::D9 => self.cell(a),
            Shape::Ri => self.register(a),
            Shape::ImmD9 => {
                self.immediate(a)?;
                self.cell(b)
            }
            Shape::ImmRi => {
                self.immediate(a)?;
                self.register(b)
            }
            Shape::D9B3 => {
                self.cell(a)?;
                self.bit(b)
            }
            Shape::A12 => self.address(next & 0xF000 | a),
            Shape::A16 => self.address(a),
            Shape::R16 => self.address((next - 1 + a) & 0xFFFF),
            Shape::R8 => self.address(next + a),
            _ => self.branch(shape, [a, b, c], next),
        }
    }

    /// The operands of a conditional branch.
    fn branch(&mut self, shape: Shape, [a, b, c]: [i32; 3], next: i32) -> Option<()> {
        match shape {
            Shape::D9B3R8 => {
                self.cell(a)?;
                self.bit(b)?;
                self.address(next + c)
            }
            Shape::D9R8 => {
                self.cell(a)?;
                self.address(next + b)
            }
            Shape::ImmR8 => {
                self.immediate(a)?;
                self.address(next + b)
            }
            Shape::RiImmR8 => {
                self.register(a)?;
                self.immediate(b)?;
                self.address(next + c)
            }
            _ => {
                self.register(a)?;
                self.address(next + b)
            }
        }
    }

    fn immediate(&mut self, value: i32) -> Option<()> {
        self.this(b"\t#")?;
        self.is::<2>(value)
    }

    fn cell(&mut self, value: i32) -> Option<()> {
        self.this(b"\t")?;
        self.is::<3>(value)
    }

    fn register(&mut self, value: i32) -> Option<()> {
        self.this(b"\t@R")?;
        self.is::<1>(value)
    }

    fn bit(&mut self, value: i32) -> Option<()> {
        self.this(b"\t")?;
        self.is::<1>(value)
    }

    fn address(&mut self, target: i32) -> Option<()> {
        self.this(b"\t")?;
        match target {
            0..=65_535 => self.is::<4>(target),
            _ => self.this(b"?"),
        }
    }

    /// This number in as many digits.
    fn is<const N: usize>(&mut self, value: i32) -> Option<()> {
        (self.number::<N>()? == value as usize).then_some(())
    }
}
