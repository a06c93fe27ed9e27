//! Document 01's ranges, and document 02's two modes, written out a second time and independently of our
//! proved code. They judge the calls that have no counterpart in the original, and are themselves held
//! against the original where there is one.

pub mod back;
pub mod blocks;
pub mod dis;
pub mod fields;
pub mod flow;
pub mod input;
pub mod listing;
pub mod map;
mod mode;
pub mod reached;
pub mod replay;
pub mod report;
pub mod sweep;
pub mod tracer;
pub mod views;

use crate::answer::{Answer, found};
use crate::original;
pub use mode::Mode;
use std::ops::RangeInclusive;
use std::sync::LazyLock;

/// The highest base that resolving takes.
pub use pottagewing::HIGHEST_BASE;

#[derive(Clone, Copy, PartialEq, Eq, Debug)]
pub enum Kind {
    Immediate,
    /// A memory cell, d9.
    Cell,
    Bit,
    /// A register, Ri.
    Register,
    /// A short branch's address or offset.
    Short,
    /// Brf's and Callr's address or offset.
    Wrapping,
    /// Jmp's and Call's address, or its low twelve bits.
    Page,
    /// Jmpf's and Callf's address.
    Whole,
}

use Kind::*;

/// The operands of a form, in the order shown.
pub fn kinds(form: usize) -> &'static [Kind] {
    static BY_FORM: LazyLock<[&'static [Kind]; original::FORMS]> =
        LazyLock::new(|| std::array::from_fn(|form| kinds_of(original::name(form))));
    BY_FORM[form]
}

fn kinds_of(name: &str) -> &'static [Kind] {
    match name {
        "Mul" | "Div" | "Rol" | "Rolc" | "Ror" | "Rorc" | "Ldc" => &[],
        "Ret" | "Reti" | "Nop" | "Ldf" | "Stf" => &[],
        "Mov_d9" => &[Immediate, Cell],
        "Mov_Rj" => &[Immediate, Register],
        "Push" | "Pop" => &[Cell],
        "Jmp" | "Call" => &[Page],
        "Jmpf" | "Callf" => &[Whole],
        "Brf" | "Callr" => &[Wrapping],
        "Br" | "Bz" | "Bnz" => &[Short],
        "Bp" | "Bpc" | "Bn" => &[Cell, Bit, Short],
        "Dbnz_d9" | "Be_d9" | "Bne_d9" => &[Cell, Short],
        "Dbnz_Ri" => &[Register, Short],
        "Be_i8" | "Bne_i8" => &[Immediate, Short],
        "Be_Rj" | "Bne_Rj" => &[Register, Immediate, Short],
        "Clr1" | "Set1" | "Not1" => &[Cell, Bit],
        name if name.ends_with("_i8") => &[Immediate],
        name if name.ends_with("_d9") => &[Cell],
        name if name.ends_with("_Ri") => &[Register],
        name => panic!("document 01 has no form {name}"),
    }
}

impl Kind {
    /// What encode takes.
    pub fn fields(self) -> RangeInclusive<i32> {
        match self {
            Immediate => 0..=255,
            Cell => 0..=511,
            Bit => 0..=7,
            Register => 0..=3,
            Short => -128..=127,
            Page => 0..=4_095,
            Wrapping | Whole => 0..=65_535,
        }
    }

    /// The bits of the field in the bytes.
    pub fn width(self) -> usize {
        let fields = self.fields();
        (fields.end() - fields.start() + 1).trailing_zeros() as usize
    }

    pub fn is_address(self) -> bool {
        matches!(self, Short | Wrapping | Page | Whole)
    }

    /// What resolving takes, before it looks at the base.
    fn operands(self) -> RangeInclusive<i32> {
        match self.is_address() {
            true => 0..=65_535,
            false => self.fields(),
        }
    }

    /// The field of an operand that is resolved at a base.
    fn resolved(self, mode: Mode, number: i64, base: i64) -> i64 {
        match self {
            Short => mode.difference(number - base),
            Wrapping => (number - base + 1).rem_euclid(65_536),
            Page => number % 4_096,
            _ => number,
        }
    }

    fn refusal(self, mode: Mode, index: usize, value: i32, base: i64) -> Option<Answer> {
        let number = i64::from(value);
        if !self.operands().contains(&value) {
            return Some(match self {
                Short | Wrapping => Answer::new(Answer::NO_ADDRESS, &[number]),
                _ => misfit(index, value),
            });
        }
        let (base_page, page) = (base / 4_096 % 16, number / 4_096);
        let offset = self.resolved(mode, number, base);
        match self {
            Page if page != base_page => Some(Answer::new(Answer::OTHER_PAGE, &[base_page, page])),
            Short if !(-128..=127).contains(&offset) => {
                Some(Answer::new(Answer::TOO_FAR, &[offset]))
            }
            _ => None,
        }
    }
}

/// A number for each operand of a form, and 0 past them.
pub fn numbers(form: usize, number: impl Fn(Kind) -> i32) -> [i32; 3] {
    let kinds = kinds(form);
    std::array::from_fn(|index| kinds.get(index).map_or(0, |kind| number(*kind)))
}

fn misfit(index: usize, value: i32) -> Answer {
    Answer::new(Answer::UNFIT, &[index as i64 + 1, i64::from(value)])
}

/// The refusal of encode for the fields alone.
pub fn encode_refusal(form: usize, fields: [i32; 3]) -> Option<Answer> {
    let mut operands = kinds(form).iter().zip(fields).enumerate();
    operands.find_map(|(index, (kind, value))| {
        (!kind.fields().contains(&value)).then(|| misfit(index, value))
    })
}

fn resolve_refusal(mode: Mode, form: usize, operands: [i32; 3], base: u32) -> Option<Answer> {
    if base > HIGHEST_BASE {
        return Some(Answer::new(Answer::PAST_MEMORY, &[i64::from(base)]));
    }
    let mut operands = kinds(form).iter().zip(operands).enumerate();
    operands.find_map(|(index, (kind, value))| kind.refusal(mode, index, value, i64::from(base)))
}

/// The answer of resolving.
pub fn resolve(mode: Mode, first: u8, operands: [i32; 3], base: u32) -> Answer {
    let form = original::form(first);
    if let Some(refusal) = resolve_refusal(mode, form, operands, base) {
        return refusal;
    }
    let mut fields = [0; 3];
    for (index, kind) in kinds(form).iter().enumerate() {
        let operand = i64::from(operands[index]);
        fields[index] = kind.resolved(mode, operand, i64::from(base)) as i32;
    }
    found(form, flow::size(first), fields)
}

/// Whether the original can be asked: it has registers 0 to 3 only, and no limit on the base.
pub fn original_has(form: usize, operands: [i32; 3], base: u32) -> bool {
    let mut registers = kinds(form).iter().zip(operands);
    base <= HIGHEST_BASE
        && registers.all(|(kind, value)| *kind != Register || (0..=3).contains(&value))
}

/// Holds the table of operands against the widths of the fields in the original's patterns.
pub fn check_widths() {
    for form in 0..original::FORMS {
        let mut widths = [0; 3];
        for (index, kind) in kinds(form).iter().enumerate() {
            widths[index] = kind.width();
        }
        assert_eq!(widths, original::widths(form), "{}", original::name(form));
    }
}
