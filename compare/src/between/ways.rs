//! The ways to trace an image to the end: single steps in any order, a run, a run that steps go on from, and sweeps.

use super::{Given, WAITING, places};
use crate::lent::Lent;
use crate::ours;
use compare::answer::Answer;
use compare::paper::flow;
use compare::paper::reached::fits;
use compare::random::Random;

/// How often it is traced by steps from the start.
const WALKS: usize = 3;
const NO_LIMIT: u32 = u32::MAX;

/// What a way leaves at the image's positions, and the byte mask over it.
pub struct End {
    pub way: &'static str,
    pub marks: Vec<u8>,
    pub mask: (Answer, Vec<u8>),
}

/// A run that is cut off is not at the end, and there is none then.
pub fn ends(random: &mut Random, given: &Given) -> Vec<End> {
    let mut ends = vec![];
    for _ in 0..WALKS {
        let marks = stepped(random, given);
        ends.push(end(random, given, "steps", &marks));
    }
    let (answer, marks) = ran(random, given, NO_LIMIT);
    if answer.done() {
        ends.push(end(random, given, "run", &marks));
    }
    let limit = random.below(given.image.len() as u64 + 1) as u32;
    let (_, mut marks) = ran(random, given, limit);
    walk(random, given, marks.lend());
    ends.push(end(random, given, "run, then steps", &marks));
    let marks = swept(random, given);
    ends.push(end(random, given, "sweeps", &marks));
    ends
}

fn end(random: &mut Random, given: &Given, way: &'static str, marks: &Lent<u8>) -> End {
    let image = &given.image;
    let mut mask = Lent::filled(image.len(), random, |mixed| mixed as u8);
    let answer = ours::mask(image, marks.part(), mask.lend());
    End {
        way,
        marks: marks.part()[..image.len()].to_vec(),
        mask: (answer, mask.part().to_vec()),
    }
}

/// Marks of any content.
fn lent(random: &mut Random, given: &Given) -> Lent<u8> {
    let length = given.image.len() + random.below(5) as usize;
    Lent::filled(length, random, |mixed| mixed as u8)
}

fn stepped(random: &mut Random, given: &Given) -> Lent<u8> {
    let mut marks = lent(random, given);
    ours::start(&given.image, marks.lend(), &given.entries, &given.pins);
    walk(random, given, marks.lend());
    marks
}

fn ran(random: &mut Random, given: &Given, limit: u32) -> (Answer, Lent<u8>) {
    let mut marks = lent(random, given);
    let mut order = vec![0; given.image.len()];
    let answer = given.run(marks.lend(), &mut order, limit);
    (answer, marks)
}

fn swept(random: &mut Random, given: &Given) -> Lent<u8> {
    let (image, mut marks) = (&given.image, lent(random, given));
    ours::sweep(given.mode, image, marks.lend(), &given.entries, &given.pins);
    marks
}

/// Takes steps at waiting positions, in any order, until none is accepted, which is so once every position was taken up. One
/// that is cut off is refused, and stays.
fn walk(random: &mut Random, given: &Given, marks: &mut [u8]) {
    let (mode, image) = (given.mode, &given.image);
    let mut accepted = 0;
    let mut before = 1;
    while accepted != before {
        before = accepted;
        let mut open = places(image.len(), |at| marks[at] == WAITING);
        while !open.is_empty() && accepted <= image.len() {
            let at = open.swap_remove(random.below(open.len() as u64) as usize);
            if ours::step(mode, image, marks, at).done() {
                accepted += 1;
                open.extend(noted(given, marks, at));
            }
        }
    }
}

/// The targets of a position that are waiting.
fn noted(given: &Given, marks: &[u8], at: u32) -> Vec<u32> {
    let (image, at) = (&given.image, at as usize);
    if !fits(image, at) {
        return vec![];
    }
    let targets = flow::targets_at(given.mode, image, at).into_iter();
    let inside = targets.filter(|target| (0..image.len() as i64).contains(target));
    let inside = inside.map(|target| target as u32);
    inside
        .filter(|target| marks[*target as usize] == WAITING)
        .collect()
}
