//! Instructions by themselves. A form is named by a first byte: each of the 256 names one, and the bits of operands in it do not count.

use crate::{Form, Mode, Refusal, VALUES, numbers};

/// A decoded or resolved instruction. Operands that its form does not have are 0.
#[derive(Clone, Copy, PartialEq, Eq, Debug)]
pub struct Instruction {
    pub form: Form,
    /// In bytes, 1 to 3.
    pub size: usize,
    pub operands: [i32; 3],
}

impl Instruction {
    fn of(values: [i64; VALUES]) -> Instruction {
        let [form, size, a, b, c] = values;
        Instruction {
            form: Form::ALL[form as usize],
            size: size as usize,
            operands: [a as i32, b as i32, c as i32],
        }
    }
}

/// Where control may go, two positions at most.
#[derive(Clone, Copy, PartialEq, Eq, Debug)]
pub struct Targets {
    count: usize,
    positions: [i64; 2],
}

impl Targets {
    /// Where a jump, branch or call leads, then the position after the instruction, if control can go there.
    pub fn list(&self) -> &[i64] {
        &self.positions[..self.count]
    }
}

/// The instruction at the beginning of the bytes.
#[inline]
pub fn decode(bytes: &[u8]) -> Result<Instruction, Refusal> {
    numbers::decode(bytes).told().map(Instruction::of)
}

/// How many bytes were written.
#[inline]
pub fn encode(first: u8, fields: [i32; 3], room: &mut [u8]) -> Result<usize, Refusal> {
    numbers::encode(first, fields, room).count()
}

/// The fields of an instruction whose operands are plain numbers; `base` is the address after it.
#[inline]
pub fn resolve(
    mode: Mode,
    first: u8,
    operands: [i32; 3],
    base: u32,
) -> Result<Instruction, Refusal> {
    numbers::resolve(mode as u32, first, operands, base)
        .told()
        .map(Instruction::of)
}

#[inline]
pub fn targets(mode: Mode, position: u32, first: u8, fields: [i32; 3]) -> Result<Targets, Refusal> {
    let [count, one, other, ..] = numbers::targets(mode as u32, position, first, fields).told()?;
    Ok(Targets {
        count: count as usize,
        positions: [one, other],
    })
}
