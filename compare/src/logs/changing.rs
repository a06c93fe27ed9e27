//! Blocks with which other marks, entries, images and modes are lent than with those before, and records that no call
//! made. The plain blocks judge the first; of the second it is seen that they have one answer.

use super::blocks::{Ours, Taker};
use super::scene::{self, Scene};
use super::{spoil, walk};
use crate::lent::Lent;
use crate::ours::Record;
use crate::share;
use crate::steps::shown;
use crate::tally::{Call, Judge, Tally};
use compare::answer::Answer;
use compare::paper::blocks::Blocks;
use compare::random::Random;

const LOGS: u64 = 20_000;
const MADE_UP: u64 = 10_000;
/// Some lines of a log each.
const BLOCKS: usize = 6;
/// Counts for any of the images.
const COUNTS: usize = 44;

/// What is left, and what each block was answered with.
#[derive(PartialEq, Debug)]
struct Fed(Vec<Answer>, Lent<u64>);

pub fn compare(tally: &mut Tally, random: &mut Random) {
    (0..share::times(LOGS)).for_each(|_| other_lent(tally, random));
    (0..share::times(MADE_UP)).for_each(|_| made_up(tally, random));
}

/// A text and the scene that is lent with it.
type Block = (Vec<u8>, Scene, Vec<u32>);

/// Of another scene, or of the same image traced otherwise.
fn blocks(random: &mut Random) -> Vec<Block> {
    let mut scene = scene::short(random);
    let mut blocks = vec![];
    for _ in 0..BLOCKS {
        let entries = scene.entries(random);
        let lines = random.below(4) as usize;
        let positions = walk::positions(random, scene.traced(&entries), lines);
        let mut text = walk::text(&positions);
        if random.below(12) == 0 {
            spoil::text(random, &scene, &mut text);
        }
        let next = match random.below(3) {
            0 => scene::short(random),
            _ => Scene::new(random, scene.image.clone(), entries.clone()),
        };
        blocks.push((text, std::mem::replace(&mut scene, next), entries));
    }
    blocks
}

fn feed(taker: &mut impl Taker, blocks: &[Block], counts: &Lent<u64>) -> Fed {
    let mut counts = counts.clone();
    let mut take = |(text, scene, entries): &Block| {
        let traced = scene.traced(entries);
        taker.take(traced, text, counts.lend())
    };
    let mut answers: Vec<Answer> = blocks.iter().map(&mut take).collect();
    answers.push(taker.close());
    Fed(answers, counts)
}

fn other_lent(tally: &mut Tally, random: &mut Random) {
    let blocks = blocks(random);
    let counts = Lent::filled(COUNTS, random, |mixed| mixed / 2);
    let expected = feed(&mut Blocks::default(), &blocks, &counts);
    let ours = feed(&mut Ours::open(random), &blocks, &counts);
    judge(tally, &blocks, &expected, &ours);
}

fn judge(tally: &mut Tally, blocks: &[Block], expected: &Fed, ours: &Fed) {
    let number = expected.0[expected.0.len() - 1].number;
    let input = || {
        let shown = blocks.iter().map(|(text, scene, entries)| {
            let text = String::from_utf8_lossy(text);
            let image = shown(&scene.image);
            format!("{text:?} over {image} {:?} {entries:?}", scene.mode)
        });
        format!("blocks {:#?}", shown.collect::<Vec<String>>())
    };
    let what = (Call::Blocks, Judge::Document);
    tally.judge(what, None, (number, expected), ours, input);
}

/// Words near what a record may hold, or any.
fn made_up(tally: &mut Tally, random: &mut Random) {
    let record: Record = std::array::from_fn(|_| match random.below(4) {
        0 => 0,
        1 => random.below(24),
        2 => random.pick(&[65_535, 65_536, u64::MAX >> 1, u64::MAX]),
        _ => random.any(),
    });
    let blocks = blocks(random);
    let counts = Lent::filled(COUNTS, random, |mixed| mixed / 2);
    let one = feed(&mut Ours::made_up(random, record), &blocks, &counts);
    let other = feed(&mut Ours::made_up(random, record), &blocks, &counts);
    judge(tally, &blocks, &one, &other);
}
