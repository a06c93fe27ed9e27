//! The enum as the compiler hands it over: its variants with their patterns and operands.

use crate::pattern::{self, Byte, Place};
use proc_macro::{Delimiter, TokenStream, TokenTree};

/// What stands in a variant: a number (`Ex`) or a register (`IM`).
#[derive(Clone, Copy, PartialEq)]
pub enum Operand {
    Number,
    Register,
}

pub struct Form {
    pub name: String,
    pub bytes: Vec<Byte>,
    pub operands: Vec<Operand>,
}

impl Form {
    /// How many bits of the pattern belong to an operand.
    pub fn width(&self, operand: usize) -> usize {
        let places = self.bytes.iter().flat_map(|byte| byte.0.iter());
        places
            .filter(|place| matches!(place, Place::Field { operand: o, .. } if *o == operand))
            .count()
    }
}

pub fn read(item: TokenStream) -> Vec<Form> {
    let body = item
        .into_iter()
        .find_map(|word| group(&word, Delimiter::Brace));
    read_forms(body.expect("an enum has a body in braces"))
}

fn read_forms(body: TokenStream) -> Vec<Form> {
    let mut forms = vec![];
    let mut bytes = None;
    for word in body {
        if let Some(attribute) = group(&word, Delimiter::Bracket) {
            bytes = read_attribute(attribute).or(bytes);
        } else if let Some(operands) = group(&word, Delimiter::Parenthesis) {
            let form: &mut Form = forms.last_mut().expect("operands follow a name");
            form.operands = read_operands(operands);
        } else if let TokenTree::Ident(name) = word {
            forms.push(Form {
                name: name.to_string(),
                bytes: bytes.take().expect("each variant has its pattern"),
                operands: vec![],
            });
        }
    }
    forms
}

/// The pattern of `instr = ".."`; none for any other attribute.
fn read_attribute(attribute: TokenStream) -> Option<Vec<Byte>> {
    let words: Vec<String> = attribute.into_iter().map(|word| word.to_string()).collect();
    match &words[..] {
        [name, _, text] if name == "instr" => Some(pattern::read(text.trim_matches('"'))),
        _ => None,
    }
}

fn read_operands(operands: TokenStream) -> Vec<Operand> {
    let names = operands.into_iter().filter_map(|word| match word {
        TokenTree::Ident(name) => Some(name.to_string()),
        _ => None,
    });
    names
        .map(|name| match name.as_str() {
            "Ex" => Operand::Number,
            "IM" => Operand::Register,
            other => panic!("an operand of the type '{other}'"),
        })
        .collect()
}

fn group(word: &TokenTree, delimiter: Delimiter) -> Option<TokenStream> {
    match word {
        TokenTree::Group(group) if group.delimiter() == delimiter => Some(group.stream()),
        _ => None,
    }
}
