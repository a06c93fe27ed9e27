//! Short logs with every change at every place, and every move within short images.

use super::scene::{self, Scene};
use super::{Given, spoil, walk};
use crate::lent::Lent;
use crate::share;
use crate::tally::Tally;
use compare::random::Random;

/// Images of up to so many bytes in which every move is tried, and how many there are.
const LONGEST: usize = 11;
const IMAGES: u64 = 3_000;
/// Images and entries of logs that are changed at every place, with the positions of their lines.
const CHANGED: [(&[u8], &[u32], &[usize]); 3] = [
    // Document 01's example: a Br, an Inc, a Bz back, and a Ret, after which a move is free.
    (
        &[0x01, 0x02, 0x00, 0x41, 0x64, 0x80, 0xF9, 0xA0],
        &[0],
        &[0, 4, 5, 7, 4],
    ),
    // A Jmpf that is not followed, and an interrupt.
    (
        &[
            0xB8, 0x0D, 0x21, 0x00, 0x0A, 0x00, 0x00, 0x00, 0x00, 0x00, 0xB0,
        ],
        &[0, 10],
        &[0, 2, 10, 10],
    ),
    // One line.
    (&[0x01, 0xFE], &[0], &[0]),
];

pub fn compare(tally: &mut Tally, random: &mut Random) {
    for (image, entries, positions) in CHANGED {
        let scene = Scene::whole(image, entries);
        let text = walk::text(positions);
        changes(tally, random, (&scene, entries), &text);
    }
    for _ in 0..share::times(IMAGES) {
        moves(tally, random);
    }
}

/// Each byte of the text in turn is any other, lost, and doubled; at each place stands one more that matters.
fn changes(tally: &mut Tally, random: &mut Random, lent: (&Scene, &[u32]), text: &[u8]) {
    for at in 0..=text.len() {
        for byte in spoil::TELLING {
            let changed = [&text[..at], &[*byte], &text[at..]].concat();
            one(tally, random, lent, &changed);
        }
        let Some(own) = text.get(at) else { continue };
        for byte in (0..=255).filter(|byte| byte != own) {
            let changed = [&text[..at], &[byte], &text[at + 1..]].concat();
            one(tally, random, lent, &changed);
        }
        for changed in [[&text[..at], &text[at + 1..]], [&text[..=at], &text[at..]]] {
            one(tally, random, lent, &changed.concat());
        }
        one(tally, random, lent, &text[..at]);
    }
}

/// From every position of an image to every one, and to those past its end.
fn moves(tally: &mut Tally, random: &mut Random) {
    let scene = loop {
        let scene = scene::short(random);
        if scene.image.len() <= LONGEST {
            break scene;
        }
    };
    let entries = scene.entries(random);
    for from in 0..=scene.image.len() {
        for to in 0..=scene.image.len() {
            one(tally, random, (&scene, &entries), &walk::text(&[from, to]));
        }
    }
}

fn one(tally: &mut Tally, random: &mut Random, (scene, entries): (&Scene, &[u32]), text: &[u8]) {
    let length = scene.image.len() + random.below(3) as usize;
    let given = Given {
        traced: scene.traced(entries),
        text,
        counts: Lent::filled(length, random, |mixed| mixed / 2),
    };
    given.compare(tally, random);
}
