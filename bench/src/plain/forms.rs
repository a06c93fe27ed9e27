//! The byte tables: of each first byte the form, its size, where control goes from it, and its operands.

#[derive(Clone, Copy, PartialEq)]
pub enum Flow {
    Stop,
    Next,
    Jump,
    /// A conditional branch or a call.
    Branch,
}

/// The operands of a form, in the order shown.
#[derive(Clone, Copy, PartialEq)]
pub enum Shape {
    Bare,
    Imm,
    D9,
    Ri,
    ImmD9,
    ImmRi,
    D9B3,
    A12,
    A16,
    R16,
    R8,
    D9B3R8,
    D9R8,
    RiR8,
    ImmR8,
    RiImmR8,
}

#[derive(Clone, Copy)]
pub struct Form {
    /// Its place in the original's enum.
    pub number: u8,
    pub size: u8,
    pub flow: Flow,
    pub shape: Shape,
}

pub static FORMS: [Form; 256] = {
    let mut forms = [form(0); 256];
    let mut first = 1;
    while first < 256 {
        forms[first] = form(first as u8);
        first += 1;
    }
    forms
};

pub static MNEMONICS: [&str; 70] = [
    "add", "add", "add", "addc", "addc", "addc", "sub", "sub", "sub", "subc", "subc", "subc",
    "inc", "inc", "dec", "dec", "mul", "div", "and", "and", "and", "or", "or", "or", "xor", "xor",
    "xor", "rol", "rolc", "ror", "rorc", "ld", "ld", "st", "st", "mov", "mov", "ldc", "push",
    "pop", "xch", "xch", "jmp", "jmpf", "br", "brf", "bz", "bnz", "bp", "bpc", "bn", "dbnz",
    "dbnz", "be", "be", "be", "bne", "bne", "bne", "call", "callf", "callr", "ret", "reti", "clr1",
    "set1", "not1", "nop", "ldf", "stf",
];

/// Of each range of first bytes, both ends included, the form and its operands.
const RANGES: [(u8, u8, u8, Shape); 78] = [
    (0x81, 0x81, 0, Shape::Imm),
    (0x82, 0x83, 1, Shape::D9),
    (0x84, 0x87, 2, Shape::Ri),
    (0x91, 0x91, 3, Shape::Imm),
    (0x92, 0x93, 4, Shape::D9),
    (0x94, 0x97, 5, Shape::Ri),
    (0xA1, 0xA1, 6, Shape::Imm),
    (0xA2, 0xA3, 7, Shape::D9),
    (0xA4, 0xA7, 8, Shape::Ri),
    (0xB1, 0xB1, 9, Shape::Imm),
    (0xB2, 0xB3, 10, Shape::D9),
    (0xB4, 0xB7, 11, Shape::Ri),
    (0x62, 0x63, 12, Shape::D9),
    (0x64, 0x67, 13, Shape::Ri),
    (0x72, 0x73, 14, Shape::D9),
    (0x74, 0x77, 15, Shape::Ri),
    (0x30, 0x30, 16, Shape::Bare),
    (0x40, 0x40, 17, Shape::Bare),
    (0xE1, 0xE1, 18, Shape::Imm),
    (0xE2, 0xE3, 19, Shape::D9),
    (0xE4, 0xE7, 20, Shape::Ri),
    (0xD1, 0xD1, 21, Shape::Imm),
    (0xD2, 0xD3, 22, Shape::D9),
    (0xD4, 0xD7, 23, Shape::Ri),
    (0xF1, 0xF1, 24, Shape::Imm),
    (0xF2, 0xF3, 25, Shape::D9),
    (0xF4, 0xF7, 26, Shape::Ri),
    (0xE0, 0xE0, 27, Shape::Bare),
    (0xF0, 0xF0, 28, Shape::Bare),
    (0xC0, 0xC0, 29, Shape::Bare),
    (0xD0, 0xD0, 30, Shape::Bare),
    (0x02, 0x03, 31, Shape::D9),
    (0x04, 0x07, 32, Shape::Ri),
    (0x12, 0x13, 33, Shape::D9),
    (0x14, 0x17, 34, Shape::Ri),
    (0x22, 0x23, 35, Shape::ImmD9),
    (0x24, 0x27, 36, Shape::ImmRi),
    (0xC1, 0xC1, 37, Shape::Bare),
    (0x60, 0x61, 38, Shape::D9),
    (0x70, 0x71, 39, Shape::D9),
    (0xC2, 0xC3, 40, Shape::D9),
    (0xC4, 0xC7, 41, Shape::Ri),
    (0x28, 0x2F, 42, Shape::A12),
    (0x38, 0x3F, 42, Shape::A12),
    (0x21, 0x21, 43, Shape::A16),
    (0x01, 0x01, 44, Shape::R8),
    (0x11, 0x11, 45, Shape::R16),
    (0x80, 0x80, 46, Shape::R8),
    (0x90, 0x90, 47, Shape::R8),
    (0x68, 0x6F, 48, Shape::D9B3R8),
    (0x78, 0x7F, 48, Shape::D9B3R8),
    (0x48, 0x4F, 49, Shape::D9B3R8),
    (0x58, 0x5F, 49, Shape::D9B3R8),
    (0x88, 0x8F, 50, Shape::D9B3R8),
    (0x98, 0x9F, 50, Shape::D9B3R8),
    (0x52, 0x53, 51, Shape::D9R8),
    (0x54, 0x57, 52, Shape::RiR8),
    (0x31, 0x31, 53, Shape::ImmR8),
    (0x32, 0x33, 54, Shape::D9R8),
    (0x34, 0x37, 55, Shape::RiImmR8),
    (0x41, 0x41, 56, Shape::ImmR8),
    (0x42, 0x43, 57, Shape::D9R8),
    (0x44, 0x47, 58, Shape::RiImmR8),
    (0x08, 0x0F, 59, Shape::A12),
    (0x18, 0x1F, 59, Shape::A12),
    (0x20, 0x20, 60, Shape::A16),
    (0x10, 0x10, 61, Shape::R16),
    (0xA0, 0xA0, 62, Shape::Bare),
    (0xB0, 0xB0, 63, Shape::Bare),
    (0xC8, 0xCF, 64, Shape::D9B3),
    (0xD8, 0xDF, 64, Shape::D9B3),
    (0xE8, 0xEF, 65, Shape::D9B3),
    (0xF8, 0xFF, 65, Shape::D9B3),
    (0xA8, 0xAF, 66, Shape::D9B3),
    (0xB8, 0xBF, 66, Shape::D9B3),
    (0x00, 0x00, 67, Shape::Bare),
    (0x50, 0x50, 68, Shape::Bare),
    (0x51, 0x51, 69, Shape::Bare),
];

const fn form(first: u8) -> Form {
    let mut index = 0;
    loop {
        let (lowest, highest, number, shape) = RANGES[index];
        if lowest <= first && first <= highest {
            return Form {
                number,
                size: size(shape),
                flow: flow(number),
                shape,
            };
        }
        index += 1;
    }
}

const fn size(shape: Shape) -> u8 {
    match shape {
        Shape::Bare | Shape::Ri => 1,
        Shape::Imm | Shape::D9 | Shape::ImmRi | Shape::D9B3 => 2,
        Shape::A12 | Shape::R8 | Shape::RiR8 => 2,
        Shape::ImmD9 | Shape::A16 | Shape::R16 | Shape::D9B3R8 => 3,
        Shape::D9R8 | Shape::ImmR8 | Shape::RiImmR8 => 3,
    }
}

const fn flow(number: u8) -> Flow {
    match number {
        42..=45 => Flow::Jump,
        46..=61 => Flow::Branch,
        62 | 63 => Flow::Stop,
        _ => Flow::Next,
    }
}
