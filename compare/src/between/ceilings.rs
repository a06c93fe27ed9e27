//! Ceilings on what a run does and leaves, document 02's W12, also of one that is cut off.

use super::{Given, is_traced, judge};
use crate::lent::Lent;
use crate::ours;
use crate::tally::{Call, Tally};
use compare::answer::Answer;
use compare::random::Random;

const NO_LIMIT: u32 = u32::MAX;
/// A small limit is below this.
const SMALL: u64 = 8;
/// What the order list holds before: no position.
const UNWRITTEN: u32 = u32::MAX;

/// What a run came to: what it answered, and counts of what it left.
struct Ran {
    limit: u32,
    answer: Answer,
    steps: usize,
    noted: usize,
    mask: (Answer, usize),
    target_marks: (Answer, usize),
}

/// What is above its ceiling, or is not what was answered: the limit, the number and what it was to be.
#[derive(PartialEq, Debug)]
struct Fault(&'static str, u32, i64, i64);

pub fn compare(tally: &mut Tally, random: &mut Random, given: &Given) {
    let length = given.image.len() as u32;
    let distinct = distinct(given);
    let mut faults: Vec<Fault> = start(random, given, distinct).into_iter().collect();
    let small = random.below(SMALL) as u32;
    for limit in [0, small, length, NO_LIMIT] {
        let ran = Ran::new(random, given, limit);
        faults.extend(ran.above(given, distinct));
        faults.extend(ran.other(given));
        ran.count(tally, given, distinct);
    }
    judge(tally, Call::Ceilings, given, &faults);
}

/// The distinct entries inside the image that are not pinned.
fn distinct(given: &Given) -> usize {
    let mut entries = given.entries.clone();
    entries.sort_unstable();
    entries.dedup();
    entries.retain(|entry| (*entry as usize) < given.image.len() && !given.pins.contains(entry));
    entries.len()
}

/// These are what start sets.
fn start(random: &mut Random, given: &Given, distinct: usize) -> Option<Fault> {
    let mut marks = Lent::filled(given.image.len(), random, |mixed| mixed as u8);
    let answer = ours::start(&given.image, marks.lend(), &given.entries, &given.pins);
    let set = match answer.done() {
        true => answer.values[0],
        false => -1,
    };
    let distinct = distinct as i64;
    (set != distinct).then_some(Fault("set by start", 0, set, distinct))
}

impl Ran {
    fn new(random: &mut Random, given: &Given, limit: u32) -> Ran {
        let (mode, image, length) = (given.mode, &given.image, given.image.len());
        let mut fill = |length| Lent::filled(length, random, |mixed| mixed as u8);
        let [mut marks, mut mask, mut target_marks] = [length; 3].map(&mut fill);
        let mut order = vec![UNWRITTEN; length];
        let answer = given.run(marks.lend(), &mut order, limit);
        let marks = marks.part();
        let masked = ours::mask(image, marks, mask.lend());
        let marked = ours::target_marks(mode, image, marks, target_marks.lend());
        let set = |room: &Lent<u8>| room.part().iter().filter(|byte| **byte != 0).count();
        Ran {
            limit,
            answer,
            steps: marks.iter().filter(|mark| is_traced(**mark)).count(),
            noted: order.iter().filter(|at| **at != UNWRITTEN).count(),
            mask: (masked, set(&mask)),
            target_marks: (marked, set(&target_marks)),
        }
    }

    /// The ceiling on the positions noted, by the entries and the steps.
    fn most_noted(&self, distinct: usize) -> usize {
        distinct + 2 * self.steps
    }

    fn above(&self, given: &Given, distinct: usize) -> Vec<Fault> {
        let (length, steps) = (given.image.len(), self.steps);
        let ceilings = [
            ("steps by the limit", steps, self.limit as usize),
            ("steps by the length", steps, length),
            ("noted by the steps", self.noted, self.most_noted(distinct)),
            ("noted by the length", self.noted, length),
            ("mask bytes", self.mask.1, 3 * steps),
            ("target marks", self.target_marks.1, steps),
        ];
        let above = ceilings.into_iter().filter(|(_, count, most)| count > most);
        let fault = |(what, count, most)| Fault(what, self.limit, count as i64, most as i64);
        above.map(fault).collect()
    }

    /// What was answered is what was left, and all was answered but a run that is cut off.
    fn other(&self, given: &Given) -> Vec<Fault> {
        let length = given.image.len() as i64;
        let number = |answer: &Answer| i64::from(answer.number);
        let [_, steps, noted, ..] = self.answer.values;
        let ran = [
            ("run refused", number(&self.answer), 0),
            ("steps answered", steps, self.steps as i64),
            ("noted answered", noted, self.noted as i64),
        ];
        let mut pairs = match self.answer.number {
            Answer::CUT_OFF => vec![],
            _ => ran.to_vec(),
        };
        for (what, answer) in [
            ("mask", &self.mask.0),
            ("target marks", &self.target_marks.0),
        ] {
            pairs.push((what, number(answer), 0));
            pairs.push((what, answer.values[0], length));
        }
        let other = pairs.into_iter().filter(|(_, ours, due)| ours != due);
        let fault = |(what, ours, due)| Fault(what, self.limit, ours, due);
        other.map(fault).collect()
    }

    /// A ceiling is reached where there is at least one step.
    fn count(&self, tally: &mut Tally, given: &Given, distinct: usize) {
        let (steps, counts) = (self.steps, &mut tally.between);
        let reached = |count: usize, most: usize| u64::from(steps > 0 && count == most);
        let most = given.image.len().min(self.limit as usize);
        counts.runs += 1;
        counts.cut_off += u64::from(self.answer.number == Answer::CUT_OFF);
        counts.steps += reached(steps, most);
        counts.noted += reached(self.noted, self.most_noted(distinct));
        counts.mask += reached(self.mask.1, 3 * steps);
        counts.target_marks += reached(self.target_marks.1, steps);
    }
}
