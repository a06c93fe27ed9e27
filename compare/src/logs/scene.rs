//! Traced images to walk through, and what is lent with them.

use crate::rings;
use compare::game::{self, VECTORS};
use compare::images::{self, KINDS};
use compare::paper::replay::Traced;
use compare::paper::{Mode, flow, tracer};
use compare::random::Random;
use pottagewing::Mark;
use std::sync::LazyLock;

/// The lengths of the images that look like games.
const GAMES: [usize; 3] = [1_024, 4_096, 16_384];
/// The most entries of the listing program.
const MANY: u64 = 256;
const TRACED: u8 = Mark::Traced as u8;
const UNFOLLOWED: u8 = Mark::Flash as u8;

/// An image, traced from entries.
pub struct Scene {
    pub mode: Mode,
    pub image: Vec<u8>,
    marks: Vec<u8>,
    entries: Vec<u32>,
}

pub fn short(random: &mut Random) -> Scene {
    let length = 1 + random.below(40) as usize;
    by_chance(random, length)
}

pub fn middle(random: &mut Random) -> Scene {
    let length = 41 + random.below(260) as usize;
    by_chance(random, length)
}

/// Of any kind, mostly from 0 too.
fn by_chance(random: &mut Random, length: usize) -> Scene {
    let image = images::image(random.pick(&KINDS), length, random);
    let mut entries = images::entries(length, random);
    if random.below(4) > 0 {
        entries.insert(0, 0);
    }
    Scene::new(random, image, entries)
}

pub fn game(random: &mut Random) -> Scene {
    static IMAGES: LazyLock<[Vec<u8>; 3]> = LazyLock::new(|| GAMES.map(game::image));
    let image = &IMAGES[random.pick(&[0, 0, 0, 1, 1, 2])];
    let entries = VECTORS.map(|at| at as u32).to_vec();
    Scene::new(random, image.clone(), entries)
}

/// Code at both ends of memory.
pub fn ring(random: &mut Random) -> Scene {
    let (image, entries) = rings::image(random);
    Scene::new(random, image, entries)
}

/// Past the longest, with marks that nothing traced.
pub fn too_long(random: &mut Random) -> Scene {
    let length = tracer::LONGEST + 1 + random.below(4) as usize;
    Scene {
        mode: mode(random),
        image: vec![0; length],
        marks: vec![TRACED; length],
        entries: vec![0],
    }
}

fn mode(random: &mut Random) -> Mode {
    random.pick(&[Mode::Unwrapped, Mode::Wrapping])
}

impl Scene {
    /// By a run: mostly to its end, at times stopped, and at times with pins.
    pub fn new(random: &mut Random, image: Vec<u8>, entries: Vec<u32>) -> Scene {
        let mode = mode(random);
        let run = |pins: &[u32], limit| {
            let (mut marks, mut order) = (vec![0; image.len()], vec![0; image.len()]);
            tracer::run(mode, &image, &mut marks, &mut order, &entries, pins, limit);
            (marks, order)
        };
        let (mut marks, order) = run(&[], u32::MAX);
        let pins = match random.below(5) {
            0 => images::pins(&image, &entries, &order, random),
            _ => vec![],
        };
        let limit = match random.below(8) {
            0 => random.below(image.len() as u64 + 1) as u32,
            _ => u32::MAX,
        };
        if !pins.is_empty() || limit < u32::MAX {
            marks = run(&pins, limit).0;
        }
        Scene {
            mode,
            image,
            marks,
            entries,
        }
    }

    /// Traced to its end, unwrapped.
    pub fn whole(image: &[u8], entries: &[u32]) -> Scene {
        let mode = Mode::Unwrapped;
        let (mut marks, mut order) = (vec![0; image.len()], vec![0; image.len()]);
        tracer::run(mode, image, &mut marks, &mut order, entries, &[], u32::MAX);
        Scene {
            mode,
            image: image.to_vec(),
            marks,
            entries: entries.to_vec(),
        }
    }

    /// With other entries lent.
    pub fn traced<'a>(&'a self, entries: &'a [u32]) -> Traced<'a> {
        Traced {
            mode: self.mode,
            image: &self.image,
            marks: &self.marks,
            entries,
        }
    }

    /// The entries that are lent: mostly those of the trace, also repeated and with others outside; none; other ones; many.
    pub fn entries(&self, random: &mut Random) -> Vec<u32> {
        let length = self.image.len();
        match random.below(12) {
            0 => vec![],
            1 => images::entries(length, random),
            2 => (0..MANY).map(|_| any(random, length)).collect(),
            3 => [&self.entries[..], &[65_536, u32::MAX], &self.entries].concat(),
            4 => [&[random.below(length as u64) as u32], &self.entries[..]].concat(),
            _ => self.entries.clone(),
        }
    }

    /// The marks that are lent: mostly those of the trace, and more behind them as often; at times too few, or damaged.
    pub fn marks(&self, random: &mut Random) -> Vec<u8> {
        let mut marks = self.marks.clone();
        let length = self.image.len();
        match random.below(96) {
            0 => marks.truncate(length - 1 - random.below(length.min(3) as u64) as usize),
            1..4 => self.damage(random, &mut marks),
            4..40 => marks.extend((0..random.below(5)).map(|_| random.any() as u8)),
            _ => (),
        }
        marks
    }

    /// A mark that none is, a traced instruction that is cut off, or one that is no Jmpf and not followed.
    fn damage(&self, random: &mut Random, marks: &mut [u8]) {
        let length = self.image.len();
        let at = random.below(length as u64) as usize;
        match random.below(4) {
            0 => marks[at] = UNFOLLOWED,
            1 => {
                let cut = |at: &usize| *at + flow::size(self.image[*at]) > length;
                let cut = (length.saturating_sub(2)..length).find(cut);
                cut.into_iter().for_each(|at| marks[at] = TRACED);
            }
            _ => marks[at] = 5 + random.below(251) as u8,
        }
    }
}

/// Mostly a position inside.
fn any(random: &mut Random, length: usize) -> u32 {
    match random.below(16) {
        0 => random.pick(&[length as u32, 65_535, 65_536, u32::MAX]),
        _ => random.below(length as u64) as u32,
    }
}
