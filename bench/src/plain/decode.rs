//! Bytes to an instruction.

use super::forms::{FORMS, Shape};

#[derive(Clone, Copy, PartialEq, Debug)]
pub struct Instruction {
    pub form: u8,
    pub size: u8,
    pub operands: [i32; 3],
}

/// Why there is no instruction.
#[derive(Clone, Copy, PartialEq, Debug)]
pub enum Refused {
    Nothing,
    /// The first byte, and how many are missing.
    CutOff(u8, u8),
}

/// The instruction at the beginning of the bytes.
pub fn decode(bytes: &[u8]) -> Result<Instruction, Refused> {
    let first = *bytes.first().ok_or(Refused::Nothing)?;
    let form = &FORMS[first as usize];
    let Some(whole) = bytes.get(..form.size as usize) else {
        return Err(Refused::CutOff(first, form.size - bytes.len() as u8));
    };
    Ok(Instruction {
        form: form.number,
        size: form.size,
        operands: operands(form.shape, whole),
    })
}

fn operands(shape: Shape, bytes: &[u8]) -> [i32; 3] {
    let first = bytes[0];
    let byte = |at: usize| i32::from(bytes[at]);
    let offset = |at: usize| i32::from(bytes[at] as i8);
    let d9 = || i32::from(first & 1) << 8 | byte(1);
    let d9_by_bit = || i32::from(first >> 4 & 1) << 8 | byte(1);
    let bit = i32::from(first & 7);
    let register = i32::from(first & 3);
    match shape {
        Shape::Bare => [0, 0, 0],
        Shape::Imm => [byte(1), 0, 0],
        Shape::D9 => [d9(), 0, 0],
        Shape::Ri => [register, 0, 0],
        Shape::ImmD9 => [byte(2), d9(), 0],
        Shape::ImmRi => [byte(1), register, 0],
        Shape::D9B3 => [d9_by_bit(), bit, 0],
        Shape::A12 => [i32::from(first >> 4 & 1) << 11 | bit << 8 | byte(1), 0, 0],
        Shape::A16 => [byte(1) << 8 | byte(2), 0, 0],
        Shape::R16 => [byte(2) << 8 | byte(1), 0, 0],
        Shape::R8 => [offset(1), 0, 0],
        Shape::D9B3R8 => [d9_by_bit(), bit, offset(2)],
        Shape::D9R8 => [d9(), offset(2), 0],
        Shape::RiR8 => [register, offset(1), 0],
        Shape::ImmR8 => [byte(1), offset(2), 0],
        Shape::RiImmR8 => [register, byte(1), offset(2)],
    }
}
