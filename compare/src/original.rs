//! The original's answers, as the plain numbers of our C face.

pub mod listed;
pub mod traced;
pub mod viewed;

use crate::answer::{self, Answer};
use std::sync::LazyLock;
use waterbear::disasm::probe;
use waterbear::env::Names;
use waterbear::expression::{Expr, IndirectionMode, Radix};
use waterbear::files::FileID;
use waterbear::instruction::{EncodingError, Instr};
use waterbear::location::{Location, Span};

/// The number of forms; a form is known by its place in the original's enum.
pub const FORMS: usize = Instr::<i32, u8>::FORMS.len();

/// A form's name.
pub fn name(form: usize) -> &'static str {
    Instr::<i32, u8>::FORMS[form]
}

/// The bits of a form's operands.
pub fn widths(form: usize) -> [usize; 3] {
    Instr::<i32, u8>::WIDTHS[form]
}

/// The form that a first byte belongs to: with two bytes more, every one begins an instruction.
pub fn form(first: u8) -> usize {
    static BY_FIRST: LazyLock<[usize; 256]> = LazyLock::new(|| {
        std::array::from_fn(|first| {
            let decoded = Instr::decode(&[first as u8, 0, 0]);
            decoded.expect("three bytes are always enough").form()
        })
    });
    BY_FIRST[first as usize]
}

/// The first bytes of a form, ascending.
pub fn firsts(wanted: usize) -> &'static [u8] {
    static BY_FORM: LazyLock<[Vec<u8>; FORMS]> = LazyLock::new(|| {
        std::array::from_fn(|wanted| (0..=255).filter(|first| form(*first) == wanted).collect())
    });
    &BY_FORM[wanted]
}

pub fn size(form: usize) -> usize {
    instruction(form, [0; 3]).size()
}

/// The original answers nothing for nothing, and nothing for an instruction that is cut off.
pub fn decode(bytes: &[u8]) -> Answer {
    match (Instr::decode(bytes), bytes) {
        (Some(found), _) => answer::found(found.form(), found.size(), found.operands()),
        (None, []) => Answer::new(Answer::NOTHING, &[]),
        (None, [first, ..]) => {
            let values = [0, i64::from(*first), i64::from(missing(bytes))];
            Answer::new(Answer::CUT_OFF, &values)
        }
    }
}

/// How many bytes an instruction that is cut off lacks. The original does not say; it is asked again with
/// more and more bytes behind, until it finds an instruction.
pub fn missing(bytes: &[u8]) -> u8 {
    let whole =
        |more: &u8| Instr::decode(&[bytes, &vec![0; usize::from(*more)]].concat()).is_some();
    (0..).find(whole).expect("a form has an end")
}

/// For fields that are in range; what becomes of others, the text of the original does not say.
pub fn encode(form: usize, fields: [i32; 3]) -> Vec<u8> {
    instruction(form, fields).encode()
}

/// The targets of an instruction at a position, for fields that are in range. A target below 0 comes out
/// of the original as 2^64 less; it is put back here.
pub fn targets(form: usize, fields: [i32; 3], position: u32) -> Vec<i64> {
    let found = probe::targets_alone(position as usize, &instruction(form, fields));
    found.into_iter().map(|target| target as i64).collect()
}

fn instruction(form: usize, fields: [i32; 3]) -> Instr<i32, u8> {
    Instr::of_form(form, |index| fields[index], |index| fields[index] as u8)
}

/// Resolves operands that are plain numbers.
pub struct Resolver {
    names: Names,
}

impl Resolver {
    #[allow(clippy::new_without_default)]
    pub fn new() -> Resolver {
        Resolver {
            names: waterbear::no_names(),
        }
    }

    /// A register in `operands` must be 0 to 3: the original has no other.
    pub fn resolve(&self, form: usize, operands: [i32; 3], base: u32) -> Answer {
        let written = Instr::of_form(
            form,
            |index| Expr::Number(span(index), operands[index], Radix::Decimal),
            |index| IndirectionMode::from(operands[index] as u8),
        );
        match written.eval(base as usize, waterbear::NO_LABEL, &self.names) {
            Ok(found) => answer::found(found.form(), found.size(), found.operands()),
            Err(error) => refusal(error),
        }
    }
}

/// A place in a source text that tells which operand an error speaks of.
fn span(index: usize) -> Span {
    Location::new(FileID::new(0), index, 1, 0).to_span()
}

fn refusal(error: EncodingError) -> Answer {
    match error {
        EncodingError::NumOutOfRange { span, value, .. } => {
            let operand = span.start().pos() as i64 + 1;
            Answer::new(Answer::UNFIT, &[operand, i64::from(value)])
        }
        EncodingError::InvalidAddress { value, .. } => {
            Answer::new(Answer::NO_ADDRESS, &[i64::from(value)])
        }
        EncodingError::SignedNumOutOfRange { value, .. } => {
            Answer::new(Answer::TOO_FAR, &[i64::from(value)])
        }
        EncodingError::AddrBitsDontMatch {
            pos_top, value_top, ..
        } => Answer::new(
            Answer::OTHER_PAGE,
            &[i64::from(pos_top), i64::from(value_top)],
        ),
        EncodingError::EvalError(error) => panic!("a plain number: {error:?}"),
    }
}
