//! A small assembler: instructions by the names of their forms, and labels. Operands are resolved and
//! encoded by the original.

use crate::original::{self, Resolver};
use crate::paper;

#[derive(Clone, Copy)]
pub struct Label(usize);

#[derive(Default)]
pub struct Assembler {
    pub bytes: Vec<u8>,
    placed: Vec<Option<usize>>,
    uses: Vec<Use>,
}

/// An instruction whose address is filled in at the end.
struct Use {
    at: usize,
    form: usize,
    operands: [i32; 3],
    label: Label,
}

pub fn form(name: &str) -> usize {
    let found = (0..original::FORMS).find(|form| original::name(*form) == name);
    found.unwrap_or_else(|| panic!("no form {name}"))
}

impl Assembler {
    pub fn label(&mut self) -> Label {
        self.placed.push(None);
        Label(self.placed.len() - 1)
    }

    pub fn place(&mut self, label: Label) {
        self.place_before(label, 0);
    }

    /// So many bytes back.
    pub fn place_before(&mut self, label: Label, back: usize) {
        self.placed[label.0] = Some(self.bytes.len() - back);
    }

    pub fn position(&self, label: Label) -> usize {
        self.placed[label.0].expect("it is placed")
    }

    pub fn here(&mut self) -> Label {
        let label = self.label();
        self.place(label);
        label
    }

    /// Zeros up to a position.
    pub fn go_to(&mut self, position: usize) {
        assert!(self.bytes.len() <= position, "{position:04X} is past");
        self.bytes.resize(position, 0);
    }

    pub fn plain(&mut self, form: usize, operands: [i32; 3]) {
        self.bytes.extend(original::encode(form, operands));
    }

    /// An instruction whose last operand is the label's address.
    pub fn to(&mut self, form: usize, operands: [i32; 3], label: Label) {
        let at = self.bytes.len();
        self.bytes.resize(at + original::size(form), 0);
        self.uses.push(Use {
            at,
            form,
            operands,
            label,
        });
    }

    pub fn finish(mut self) -> Vec<u8> {
        let resolver = Resolver::new();
        for Use {
            at,
            form,
            operands,
            label,
        } in self.uses
        {
            let mut operands = operands;
            let address = self.placed[label.0].expect("every label is placed");
            operands[paper::kinds(form).len() - 1] = address as i32;
            let next = at + original::size(form);
            let answer = resolver.resolve(form, operands, next as u32);
            assert!(
                answer.done(),
                "{} at {at:04X}: {answer:?}",
                original::name(form)
            );
            let [_, _, a, b, c] = answer.values.map(|value| value as i32);
            self.bytes[at..next].copy_from_slice(&original::encode(form, [a, b, c]));
        }
        self.bytes
    }
}
