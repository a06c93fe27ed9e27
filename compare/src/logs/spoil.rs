//! A log spoiled in one way or two: its bytes, its lines, or where it goes.

use super::scene::Scene;
use super::walk;
use crate::edits;
use compare::random::Random;

/// Bytes that matter in a line, or nearly do.
pub const TELLING: &[u8] = b"P\t\n0123456789ABCDEFafp\r GQ/:@[\0\xFF";

pub fn text(random: &mut Random, scene: &Scene, text: &mut Vec<u8>) {
    for _ in 0..random.pick(&[1, 1, 1, 1, 2]) {
        one(random, scene, text);
    }
}

fn one(random: &mut Random, scene: &Scene, text: &mut Vec<u8>) {
    match random.below(20) {
        0 | 1 => edits::byte(random, text, TELLING),
        2 => edits::one_more(random, text, TELLING),
        3 => edits::remove(random, text),
        4 => edits::double(random, text),
        5 => edits::cut(random, text),
        6 | 7 => edits::digit(random, text),
        8 | 9 => edits::lines(random, text),
        10 => small(random, text),
        11 => at_line(random, text, returned),
        12 => _ = text.pop(),
        13 => at_line(random, text, digits),
        14 => at_line(random, text, |_, lines, at| lines.insert(at, vec![b'\n'])),
        15 | 16 => elsewhere(random, scene, text),
        17 => outside(random, scene, text),
        _ => further(random, scene, text),
    }
}

/// A letter made small.
fn small(random: &mut Random, text: &mut [u8]) {
    let from = edits::place(random, text).unwrap_or(0);
    let found = text[from..]
        .iter_mut()
        .find(|byte| byte.is_ascii_uppercase());
    found
        .into_iter()
        .for_each(|byte| *byte = byte.to_ascii_lowercase());
}

/// Changes the lines at one of them, or at the end.
fn at_line(
    random: &mut Random,
    text: &mut Vec<u8>,
    change: fn(&mut Random, &mut Vec<Vec<u8>>, usize),
) {
    let lines = edits::split(text).into_iter();
    let mut lines: Vec<Vec<u8>> = lines.map(<[u8]>::to_vec).collect();
    let at = random.below(lines.len() as u64 + 1) as usize;
    change(random, &mut lines, at);
    *text = lines.concat();
}

/// A byte 13 before byte 10, or in its place.
fn returned(random: &mut Random, lines: &mut Vec<Vec<u8>>, at: usize) {
    if let Some(line) = lines.get_mut(at) {
        line.pop();
        line.push(b'\r');
        if random.below(2) == 0 {
            line.push(b'\n');
        }
    }
}

/// Another number of digits.
fn digits(random: &mut Random, lines: &mut Vec<Vec<u8>>, at: usize) {
    let count = random.pick(&[0, 1, 2, 3, 5, 5, 6, 7, 8]);
    let mut line = b"P\t".to_vec();
    line.extend((0..count).map(|_| random.pick(b"0012AF")));
    line.push(b'\n');
    match lines.get_mut(at) {
        Some(before) => *before = line,
        None => lines.push(line),
    }
}

/// A line that tells a position, in the place of another or before it.
fn put(random: &mut Random, text: &mut Vec<u8>, position: usize) {
    let lines = edits::split(text).into_iter();
    let mut lines: Vec<Vec<u8>> = lines.map(<[u8]>::to_vec).collect();
    let at = random.below(lines.len() as u64 + 1) as usize;
    if at < lines.len() && random.below(2) == 0 {
        lines.remove(at);
    }
    lines.insert(at, walk::line(position).into_bytes());
    *text = lines.concat();
}

/// Any position of the image.
fn elsewhere(random: &mut Random, scene: &Scene, text: &mut Vec<u8>) {
    let at = random.below(scene.image.len().min(65_536) as u64) as usize;
    put(random, text, at);
}

/// One past the image, or the last of memory.
fn outside(random: &mut Random, scene: &Scene, text: &mut Vec<u8>) {
    let length = scene.image.len();
    let at = random.pick(&[length, length + 1, 65_535]).min(65_535);
    put(random, text, at);
}

/// A traced position: mostly a move that is not allowed.
fn further(random: &mut Random, scene: &Scene, text: &mut Vec<u8>) {
    let traced = scene.traced(&[]);
    let from = random.below(scene.image.len().min(65_536) as u64) as usize;
    let mut around = (from..scene.image.len()).chain(0..from);
    if let Some(at) = around.find(|at| traced.is_traced(*at)) {
        put(random, text, at.min(65_535));
    }
}
