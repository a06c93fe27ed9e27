//! Whole traces: short images exhaustively, and images by chance of every length around each limit.

use crate::run;
use crate::share;
use crate::tally::Tally;
use compare::images::{self, FLASH, KINDS, TELLING};
use compare::random::Random;

/// The lengths around each limit, and how many images of each kind there are of one.
const LENGTHS: [(usize, usize, u64); 9] = [
    (0, 40, 600),
    (124, 132, 600),
    (253, 260, 300),
    (1_022, 1_026, 100),
    (4_093, 4_100, 30),
    (32_766, 32_770, 6),
    (65_405, 65_410, 6),
    (65_531, 65_536, 12),
    (65_537, 65_540, 4),
];

pub fn compare(tally: &mut Tally, random: &mut Random) {
    let mut traces = Traces { tally, random };
    traces.every_byte();
    traces.every_string(&TELLING, 4, &[&[0]]);
    traces.every_string(&FLASH, 5, &[&[0], &[2], &[0, 2], &[2, 0]]);
    traces.every_string(&FLASH, 6, &[&[0], &[3, 1]]);
    traces.by_chance();
}

struct Traces<'a> {
    tally: &'a mut Tally,
    random: &'a mut Random,
}

impl Traces<'_> {
    /// Every image of up to two bytes, and of three bytes those that begin with any byte.
    fn every_byte(&mut self) {
        self.each(&[], &[&[], &[0, 1]]);
        for a in 0..=255 {
            self.each(&[a], &[&[], &[0], &[0, 0], &[1, 0]]);
            for b in (0..=255).step_by(share::stride()) {
                self.each(&[a, b], &[&[0], &[1], &[0, 1], &[1, 0, 1]]);
            }
            for b in TELLING {
                for c in TELLING.into_iter().step_by(share::stride()) {
                    self.each(&[a, b, c], &[&[0], &[2, 0, 1]]);
                }
            }
        }
    }

    fn every_string(&mut self, alphabet: &[u8], length: u32, lists: &[&[u32]]) {
        for image in images::strings(alphabet, length).step_by(share::stride()) {
            self.each(&image, lists);
        }
    }

    fn by_chance(&mut self) {
        for (low, high, count) in LENGTHS {
            for length in low..=high {
                for turn in 0..share::times(count) * KINDS.len() as u64 {
                    let kind = KINDS[turn as usize % KINDS.len()];
                    let image = images::image(kind, length, self.random);
                    let entries = images::entries(length, self.random);
                    run::one(self.tally, self.random, &image, &entries);
                }
            }
        }
    }

    fn each(&mut self, image: &[u8], lists: &[&[u32]]) {
        for entries in lists {
            run::one(self.tally, self.random, image, entries);
        }
    }
}
