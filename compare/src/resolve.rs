//! Resolving over operands around every limit at bases around every limit, over every address at some
//! bases, over every base at some addresses, and over seeded random numbers; in wrapping mode too, where
//! document 02 judges alone.

use crate::ours;
use crate::share;
use crate::tally::{Call, Judge, Tally};
use compare::answer::Answer;
use compare::original::{self, Resolver};
use compare::paper::{self, Mode};
use compare::random::Random;
use compare::values::{self, BASES};
use std::ops::RangeInclusive;

const RANDOM_CALLS: u64 = 4_000_000;
const WRAPPING_CALLS: u64 = 1_000_000;

/// A few bases, for the sweep over every address.
const SOME_BASES: [u32; 5] = [2, 4_095, 33_000, 65_535, 65_536];

/// At the ends of memory, and where a difference turns from the highest to the lowest.
const ENDS: [RangeInclusive<u32>; 4] = [
    0..=200,
    32_600..=32_900,
    65_300..=65_540,
    0xFFFF_FFFC..=0xFFFF_FFFF,
];

pub fn compare(tally: &mut Tally, random: &mut Random) {
    in_mode(Mode::Unwrapped, tally, random, RANDOM_CALLS);
}

pub fn compare_wrapping(tally: &mut Tally, random: &mut Random) {
    in_mode(Mode::Wrapping, tally, random, WRAPPING_CALLS);
}

fn in_mode(mode: Mode, tally: &mut Tally, random: &mut Random, calls: u64) {
    let mut compared = Comparison {
        tally,
        mode,
        resolver: Resolver::new(),
    };
    for form in 0..original::FORMS {
        compared.limits(form, random);
        if let Some(last) = address_of(form) {
            compared.every_address(form, last);
            compared.every_base(form, last);
            if mode == Mode::Wrapping {
                compared.ends(form, last);
            }
        }
    }
    compared.random(random, calls);
}

/// The place of the operand that is an address: the last one.
fn address_of(form: usize) -> Option<usize> {
    let kinds = paper::kinds(form);
    let last = kinds.len().checked_sub(1)?;
    kinds[last].is_address().then_some(last)
}

struct Comparison<'a> {
    tally: &'a mut Tally,
    mode: Mode,
    resolver: Resolver,
}

impl Comparison<'_> {
    /// Each list of operand numbers at each of the bases, under any first byte of the form.
    fn limits(&mut self, form: usize, random: &mut Random) {
        let firsts = original::firsts(form);
        for base in BASES {
            let kinds = paper::kinds(form).iter();
            let lists: Vec<Vec<i32>> = kinds.map(|kind| values::operands(*kind, base)).collect();
            values::products(&lists, &mut |operands| {
                if share::is_tried() {
                    self.one(random.pick(firsts), operands, base);
                }
            });
        }
    }

    /// An address is the last operand; the others are 1, which fits them all.
    fn every_address(&mut self, form: usize, last: usize) {
        let first = original::firsts(form)[0];
        for base in SOME_BASES {
            for address in (-300..=65_836).step_by(share::stride()) {
                self.one(first, with(last, address), base);
            }
        }
    }

    fn every_base(&mut self, form: usize, last: usize) {
        let first = original::firsts(form)[0];
        for base in (0..=65_540).step_by(share::stride()) {
            for address in values::addresses(base) {
                self.one(first, with(last, address), base);
            }
        }
    }

    /// Every offset near a short one, on either side of both ends, and where the difference turns.
    fn ends(&mut self, form: usize, last: usize) {
        let first = original::firsts(form)[0];
        for base in ENDS.into_iter().flatten().step_by(share::stride()) {
            for address in values::wrapping_addresses(base) {
                self.one(first, with(last, address), base);
            }
        }
    }

    fn random(&mut self, random: &mut Random, calls: u64) {
        for _ in 0..share::times(calls) {
            let first = random.any() as u8;
            let base = random.base();
            let kinds = paper::kinds(original::form(first));
            let middle = match self.mode {
                Mode::Unwrapped => base as i32,
                Mode::Wrapping => (base as i32).wrapping_add(random.pick(&[-65_536, 0, 65_536])),
            };
            let near = middle.wrapping_sub(140)..=middle.wrapping_add(140);
            let operands = random.numbers(kinds, |kind| match kind.is_address() {
                true => near.clone(),
                false => kind.fields(),
            });
            self.one(first, operands, base);
        }
    }

    fn one(&mut self, first: u8, operands: [i32; 3], base: u32) {
        let mode = self.mode;
        let ours = ours::resolve(mode, first, operands, base);
        let expected = paper::resolve(mode, first, operands, base);
        let judge = match mode {
            Mode::Unwrapped => self.against_original(first, operands, base, expected),
            Mode::Wrapping => self.against_unwrapped(first, operands, base, ours),
        };
        let what = (Call::Resolve, judge);
        let number = expected.number;
        self.tally
            .judge(what, Some(first), (number, &expected), &ours, || {
                shown(mode, first, operands, base)
            });
    }

    fn against_original(
        &mut self,
        first: u8,
        operands: [i32; 3],
        base: u32,
        expected: Answer,
    ) -> Judge {
        let form = original::form(first);
        if !paper::original_has(form, operands, base) {
            assert!(
                !expected.done(),
                "what the original cannot be asked is refused"
            );
            return Judge::Document;
        }
        let theirs = self.resolver.resolve(form, operands, base);
        if theirs != expected {
            let input = shown(Mode::Unwrapped, first, operands, base);
            self.tally
                .table_differs(|| format!("{input}\n  {expected:?}\n  {theirs:?}"));
        }
        Judge::Original
    }

    /// What is taken unwrapped is answered alike.
    fn against_unwrapped(
        &mut self,
        first: u8,
        operands: [i32; 3],
        base: u32,
        ours: Answer,
    ) -> Judge {
        let unwrapped = ours::resolve(Mode::Unwrapped, first, operands, base);
        if unwrapped.done() {
            let what = (Call::ModesAlike, Judge::Wrapping);
            let input = || shown(Mode::Wrapping, first, operands, base);
            self.tally
                .judge(what, Some(first), (0, &unwrapped), &ours, input);
        }
        self.tally.wrapping.addresses += u64::from(ours.done() && !unwrapped.done());
        Judge::Wrapping
    }
}

fn shown(mode: Mode, first: u8, operands: [i32; 3], base: u32) -> String {
    format!("{mode:?} resolve first {first:02X} operands {operands:?} base {base}")
}

fn with(last: usize, address: i32) -> [i32; 3] {
    let mut operands = [1; 3];
    operands[last] = address;
    operands
}
