//! Routines with branches, loops, calls and hidden instructions, and tables behind them.

use super::assembler::{Assembler, Label, form};
use crate::original;
use crate::paper::flow::{self, Flow};
use crate::paper::{Kind, kinds, numbers};
use crate::random::Random;
use std::collections::HashSet;

const PAGE: usize = 4_096;
/// More than a routine and its table need.
const LONGEST: usize = 512;

/// Forms in some order, to be dealt in turn, so that each is used.
struct Deck {
    forms: Vec<usize>,
    dealt: usize,
}

impl Deck {
    fn new(random: &mut Random, wanted: impl Fn(usize) -> bool) -> Deck {
        let mut forms: Vec<usize> = (0..original::FORMS).filter(|form| wanted(*form)).collect();
        for at in 1..forms.len() {
            forms.swap(at, random.below(at as u64 + 1) as usize);
        }
        Deck { forms, dealt: 0 }
    }

    fn deal(&mut self) -> usize {
        self.dealt += 1;
        self.forms[self.dealt % self.forms.len()]
    }
}

fn flow_of(form: usize) -> Flow {
    flow::flow(original::firsts(form)[0])
}

pub struct Routines {
    pub code: Assembler,
    /// What can be called.
    pub all: Vec<Label>,
    /// What is called, by its place among them.
    pub called: HashSet<usize>,
    random: Random,
    plain: Deck,
    /// Those that go on and have an immediate.
    hiding: Deck,
    branches: Deck,
    calls: Deck,
    jumps: Deck,
}

impl Routines {
    pub fn new(seed: u64) -> Routines {
        let immediate = |form| kinds(form).contains(&Kind::Immediate);
        let goes_on = |form| flow_of(form) == Flow::GoesOn;
        let hides = |form| goes_on(form) && immediate(form);
        let branches = |form| flow_of(form) == Flow::Branches(Kind::Short);
        let calls = |form| original::name(form).starts_with("Call");
        let jumps = |form| matches!(flow_of(form), Flow::Jumps(_));
        let mut random = Random(seed);
        Routines {
            code: Assembler::default(),
            all: vec![],
            called: HashSet::new(),
            plain: Deck::new(&mut random, goes_on),
            hiding: Deck::new(&mut random, hides),
            branches: Deck::new(&mut random, branches),
            calls: Deck::new(&mut random, calls),
            jumps: Deck::new(&mut random, jumps),
            random,
        }
    }

    /// Instructions, loops, branches and calls, and a table behind them; all in one page.
    pub fn routine(&mut self, label: Label, last: &str) {
        let left = PAGE - self.code.bytes.len() % PAGE;
        if left < LONGEST {
            self.code.go_to(self.code.bytes.len() + left);
        }
        self.code.place(label);
        for _ in 0..3 + self.random.below(6) {
            match self.random.below(6) {
                0 => self.skip(),
                1 => self.turns(),
                2 => self.either(),
                3 => self.hidden(),
                4 => self.call_any(),
                _ => self.some(),
            }
        }
        self.code.plain(form(last), [0; 3]);
        self.table();
    }

    fn operands(&mut self, form: usize) -> [i32; 3] {
        let most = numbers(form, |kind| *kind.fields().end());
        most.map(|most| self.random.below(most as u64 + 1) as i32)
    }

    fn some(&mut self) {
        for _ in 0..1 + self.random.below(3) {
            let form = self.plain.deal();
            let operands = self.operands(form);
            self.code.plain(form, operands);
        }
    }

    fn branch(&mut self, label: Label) {
        let form = self.branches.deal();
        let operands = self.operands(form);
        self.code.to(form, operands, label);
    }

    fn skip(&mut self) {
        let end = self.code.label();
        self.branch(end);
        self.some();
        self.code.place(end);
    }

    fn turns(&mut self) {
        let again = self.code.here();
        self.some();
        self.branch(again);
    }

    fn either(&mut self) {
        let (other, end) = (self.code.label(), self.code.label());
        self.branch(other);
        self.some();
        let form = self.jumps.deal();
        self.code.to(form, [0; 3], end);
        self.code.place(other);
        self.some();
        self.code.place(end);
    }

    /// A branch to an instruction that stands in another's immediate.
    fn hidden(&mut self) {
        let inside = self.code.label();
        self.branch(inside);
        let form = self.hiding.deal();
        let mut operands = self.operands(form);
        let at = kinds(form).iter().position(|kind| *kind == Kind::Immediate);
        operands[at.expect("it has one")] = self.random.pick(&[0xA0, 0x64, 0xC0, 0x75]);
        self.code.plain(form, operands);
        self.code.place_before(inside, 1);
    }

    fn call_any(&mut self) {
        let index = self.random.below(self.all.len() as u64) as usize;
        self.call(index);
    }

    /// Within the page by any of the calls, else by one that reaches all.
    pub fn call(&mut self, index: usize) {
        self.called.insert(index);
        let routine = self.all[index];
        let next = self.code.bytes.len() + 2;
        let mut call = self.calls.deal();
        if kinds(call) == [Kind::Page] && self.code.position(routine) / PAGE != next / PAGE {
            call = form("Callf");
        }
        self.code.to(call, [0; 3], routine);
    }

    /// A text, a picture with empty rows, or numbers.
    pub fn table(&mut self) {
        let length = 4 + self.random.below(44);
        let kind = self.random.below(3);
        for at in 0..length {
            let byte = match kind {
                0 => b'A' + self.random.below(26) as u8,
                1 if at / 12 % 2 == 0 => 0,
                _ => self.random.any() as u8,
            };
            self.code.bytes.push(byte);
        }
    }
}
