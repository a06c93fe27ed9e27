//! The text of the functions, as Rust for the enum `Instr<Ex, IM>`.

use crate::enumeration::{Form, Operand};
use crate::pattern::{Byte, Place};

const LETTERS: [&str; 3] = ["a", "b", "c"];

pub fn all(forms: &[Form]) -> String {
    leaned_on(forms) + &for_the_comparison(forms)
}

/// The three functions that the original calls.
fn leaned_on(forms: &[Form]) -> String {
    let decodings = texts(forms, |_, form| decoding(form));
    let encodings = texts(forms, |_, form| encoding(form));
    let sizes = texts(forms, |_, form| {
        format!("Instr::{} {{ .. }} => {},\n", form.name, form.bytes.len())
    });
    format!(
        "impl Instr<i32, u8> {{
            pub fn decode_raw(bytes: &[u8]) -> Option<Instr<i32, u8>> {{
                crate::budget::spend(bytes.len());
                {decodings}
                None
            }}
            pub fn encode(&self) -> Vec<u8> {{ match self {{ {encodings} }} }}
        }}
        impl<Ex, IM> Instr<Ex, IM> {{
            pub fn size(&self) -> usize {{ match self {{ {sizes} }} }}
        }}"
    )
}

fn for_the_comparison(forms: &[Form]) -> String {
    let count = forms.len();
    let names = texts(forms, |_, form| format!("{:?}, ", form.name));
    let widths = texts(forms, |_, form| widths(form));
    let operands = texts(forms, |_, form| operands(form));
    let numbers = texts(forms, |number, form| {
        format!("Instr::{} {{ .. }} => {number},\n", form.name)
    });
    let makings = texts(forms, |number, form| {
        format!("{number} => {},\n", making(form))
    });
    format!(
        "impl Instr<i32, u8> {{
            pub const FORMS: [&'static str; {count}] = [{names}];
            pub const WIDTHS: [[usize; 3]; {count}] = [{widths}];
            pub fn operands(&self) -> [i32; 3] {{ match self {{ {operands} }} }}
        }}
        impl<Ex, IM> Instr<Ex, IM> {{
            pub fn form(&self) -> usize {{ match self {{ {numbers} }} }}
            pub fn of_form(
                form: usize,
                number: impl Fn(usize) -> Ex,
                register: impl Fn(usize) -> IM,
            ) -> Self {{
                match form {{ {makings} _ => panic!(\"there is no form {{form}}\") }}
            }}
        }}"
    )
}

/// A text for each form, which may speak of the form's number, one after the other.
fn texts(forms: &[Form], text: impl Fn(usize, &Form) -> String) -> String {
    let numbered = forms.iter().enumerate();
    numbered.map(|(number, form)| text(number, form)).collect()
}

/// The bits of each operand's field.
fn widths(form: &Form) -> String {
    format!("{:?}, ", [form.width(0), form.width(1), form.width(2)])
}

/// `if` the bytes are there and their fixed bits fit, `return` the form with its fields.
fn decoding(form: &Form) -> String {
    let fits: String = (form.bytes.iter().enumerate())
        .filter(|(_, byte)| byte.mask() != 0)
        .map(|(at, byte)| format!(" && bytes[{at}] & {} == {}", byte.mask(), byte.value()))
        .collect();
    let fields = (form.operands.iter().enumerate()).map(|(operand, kind)| match kind {
        Operand::Number => format!("({})", gathered(form, operand)),
        Operand::Register => format!("({}) as u8", gathered(form, operand)),
    });
    format!(
        "if bytes.len() >= {}{fits} {{ return Some({}); }}\n",
        form.bytes.len(),
        applied(&form.name, fields)
    )
}

/// The operand's number out of the bits of the bytes.
fn gathered(form: &Form, wanted: usize) -> String {
    let mut bits = vec![];
    for (index, byte) in form.bytes.iter().enumerate() {
        for (at, place) in byte.places() {
            match place {
                Place::Field { operand, bit } if *operand == wanted => {
                    bits.push(format!("((bytes[{index}] >> {at} & 1) as i32) << {bit}"));
                }
                _ => (),
            }
        }
    }
    bits.join(" | ")
}

/// An arm of `encode`.
fn encoding(form: &Form) -> String {
    let bytes: Vec<String> = form.bytes.iter().map(scattered).collect();
    format!("{} => vec![{}],\n", bound(form), bytes.join(", "))
}

/// A byte out of its fixed bits and the operands' bits.
fn scattered(byte: &Byte) -> String {
    let mut text = format!("{}", byte.value());
    for (at, place) in byte.places() {
        if let Place::Field { operand, bit } = place {
            let letter = LETTERS[*operand];
            text += &format!(" | ((*{letter} as i32 >> {bit} & 1) as u8) << {at}");
        }
    }
    text
}

/// An arm of `operands`, 0 where there is none.
fn operands(form: &Form) -> String {
    let value = |operand: usize| match operand < form.operands.len() {
        true => format!("*{} as i32", LETTERS[operand]),
        false => "0".to_string(),
    };
    format!(
        "{} => [{}, {}, {}],\n",
        bound(form),
        value(0),
        value(1),
        value(2)
    )
}

/// The form out of a function for numbers and one for registers.
fn making(form: &Form) -> String {
    let fields = (form.operands.iter().enumerate()).map(|(operand, kind)| match kind {
        Operand::Number => format!("number({operand})"),
        Operand::Register => format!("register({operand})"),
    });
    applied(&form.name, fields)
}

/// The form with its operands bound to letters.
fn bound(form: &Form) -> String {
    let letters = LETTERS.iter().take(form.operands.len());
    applied(&form.name, letters.map(|letter| letter.to_string()))
}

fn applied(name: &str, fields: impl Iterator<Item = String>) -> String {
    let fields: Vec<String> = fields.collect();
    match fields.is_empty() {
        true => format!("Instr::{name}"),
        false => format!("Instr::{name}({})", fields.join(", ")),
    }
}
