//! Images that do hold B8 0D 21, document 02's W13. The original traces in one order; ours are traced to the end in several,
//! and what is left must lie between two sets that the plain side reads off the bytes: what is reached when no Jmpf with
//! B8 0D in the two bytes before it is followed, and when every such one is. The same images are run under W12's ceilings.

mod ceilings;
mod made;
mod ways;

use crate::ours;
use crate::share;
use crate::steps::shown;
use crate::tally::{Call, Judge, Tally};
use compare::answer::Answer;
use compare::images;
use compare::paper::reached::{Follow, covered, fits, reached};
use compare::paper::{Mode, tracer};
use compare::random::Random;
use pottagewing::Mark;
use std::fmt::Debug;
use ways::End;

const IMAGES: u64 = 100_000;
const WAITING: u8 = Mark::Waiting as u8;
const TRACED: u8 = Mark::Traced as u8;
const UNFOLLOWED: u8 = Mark::Flash as u8;
const PINNED: u8 = Mark::Pinned as u8;

/// What is traced.
struct Given {
    mode: Mode,
    image: Vec<u8>,
    entries: Vec<u32>,
    pins: Vec<u32>,
}

/// Of each position whether its instruction is whole and whether it is in the smaller set and in the larger; of each byte
/// whether a whole instruction of these covers it.
struct Sets {
    fits: Vec<bool>,
    smaller: Vec<bool>,
    larger: Vec<bool>,
    smaller_code: Vec<bool>,
    larger_code: Vec<bool>,
}

/// Where a law does not hold: the way of tracing, the law, and the positions.
#[derive(PartialEq, Debug)]
struct Fault(&'static str, &'static str, Vec<u32>);

pub fn compare(tally: &mut Tally, random: &mut Random) {
    for turn in 0..share::times(IMAGES) {
        let given = made::given(random, turn);
        between(tally, random, &given);
        ceilings::compare(tally, random, &given);
    }
}

fn between(tally: &mut Tally, random: &mut Random, given: &Given) {
    let sets = Sets::of(given);
    let ends = ways::ends(random, given);
    let laws = ends.iter().flat_map(|end| sets.outside(given, end));
    let mut faults: Vec<Fault> = laws.collect();
    faults.extend(sets.apart(&ends));
    count(tally, given, &sets, &ends);
    judge(tally, Call::Between, given, &faults);
}

/// No fault is to be found.
fn judge<T: PartialEq + Debug>(tally: &mut Tally, call: Call, given: &Given, faults: &Vec<T>) {
    let judge = match given.mode {
        Mode::Unwrapped => Judge::Document,
        Mode::Wrapping => Judge::Wrapping,
    };
    tally.judge((call, judge), None, (Answer::DONE, &vec![]), faults, || {
        let Given {
            mode,
            image,
            entries,
            pins,
        } = given;
        let image = shown(image);
        format!("{mode:?} {call:?} of {image} entries {entries:?} pins {pins:?}")
    });
}

impl Given {
    fn reached(&self, mode: Mode, follow: Follow) -> Vec<bool> {
        reached(mode, &self.image, &self.entries, &self.pins, follow)
    }

    fn run(&self, marks: &mut [u8], order: &mut [u32], limit: u32) -> Answer {
        let (entries, pins) = (&self.entries, &self.pins);
        ours::run(self.mode, &self.image, marks, order, entries, pins, limit)
    }
}

impl Sets {
    fn of(given: &Given) -> Sets {
        let image = &given.image;
        let smaller = given.reached(given.mode, Follow::None);
        let larger = given.reached(given.mode, Follow::All);
        Sets {
            fits: (0..image.len()).map(|at| fits(image, at)).collect(),
            smaller_code: covered(image, &smaller),
            larger_code: covered(image, &larger),
            smaller,
            larger,
        }
    }

    /// What is left outside the two sets, or is no mark of a trace.
    fn outside(&self, given: &Given, end: &End) -> Vec<Fault> {
        let (fits, marks) = (&self.fits, &end.marks);
        let (smaller, larger) = (&self.smaller, &self.larger);
        let traced = |at: usize| is_traced(marks[at]);
        let waiting = |at: usize| marks[at] == WAITING;
        let found = |law, is_found: &dyn Fn(usize) -> bool| {
            Fault(end.way, law, places(marks.len(), is_found))
        };
        let mut faults = vec![
            found("smaller, not traced", &|at| {
                smaller[at] && fits[at] && !traced(at)
            }),
            found("traced, not larger", &|at| {
                traced(at) && !(larger[at] && fits[at])
            }),
            found("smaller, not waiting", &|at| {
                smaller[at] && !fits[at] && !waiting(at)
            }),
            found("waiting, not larger", &|at| {
                waiting(at) && (!larger[at] || fits[at])
            }),
            Fault(end.way, "no mark of a trace", strange(given, marks)),
        ];
        faults.extend(self.outside_code(end));
        faults.retain(|Fault(_, _, positions)| !positions.is_empty());
        faults
    }

    /// The same of the bytes.
    fn outside_code(&self, end: &End) -> [Fault; 3] {
        let (smaller, larger) = (&self.smaller_code, &self.larger_code);
        let (answer, mask) = &end.mask;
        let found = |law, is_found: &dyn Fn(usize) -> bool| {
            Fault(end.way, law, places(mask.len(), is_found))
        };
        [
            found("smaller, not code", &|at| smaller[at] && mask[at] != 1),
            found("code, not larger", &|at| !larger[at] && mask[at] != 0),
            found("mask refused", &|_| !answer.done()),
        ]
    }

    /// Where the sets are equal, every two ways leave the same.
    fn apart(&self, ends: &[End]) -> Vec<Fault> {
        let mut faults = vec![];
        let Some((first, others)) = ends.split_first() else {
            return faults;
        };
        for end in others {
            let differ = |wanted: fn(u8) -> bool| {
                let is_other = |at: usize| wanted(first.marks[at]) != wanted(end.marks[at]);
                places(first.marks.len(), is_other)
            };
            if self.equal_where_whole() {
                faults.push(Fault(end.way, "traced otherwise", differ(is_traced)));
            }
            if self.equal() {
                faults.push(Fault(
                    end.way,
                    "waiting otherwise",
                    differ(|mark| mark == WAITING),
                ));
            }
        }
        faults.retain(|Fault(_, _, positions)| !positions.is_empty());
        faults
    }

    fn equal(&self) -> bool {
        self.smaller == self.larger
    }

    fn equal_where_whole(&self) -> bool {
        (0..self.fits.len()).all(|at| !self.fits[at] || self.smaller[at] == self.larger[at])
    }
}

/// The positions with a mark that no trace leaves: 4 is where there is a pin, and 3 at a Jmpf after B8 0D alone.
fn strange(given: &Given, marks: &[u8]) -> Vec<u32> {
    let mut pinned = vec![false; marks.len()];
    for pin in &given.pins {
        if let Some(place) = pinned.get_mut(*pin as usize) {
            *place = true;
        }
    }
    places(marks.len(), |at| match marks[at] {
        UNFOLLOWED => !tracer::after_flash(&given.image, at),
        mark => mark > PINNED || (mark == PINNED) != pinned[at],
    })
}

/// Counts an image in which B8 0D 21 stands.
fn count(tally: &mut Tally, given: &Given, sets: &Sets, ends: &[End]) {
    let image = &given.image;
    if !images::has_flash(image) {
        return;
    }
    let traced = |end: &End| places(image.len(), |at| is_traced(end.marks[at]));
    let first = ends.first().map(traced);
    let flashing = |at: usize| sets.larger[at] && sets.fits[at] && tracer::after_flash(image, at);
    let unwrapped =
        [Follow::None, Follow::All].map(|follow| given.reached(Mode::Unwrapped, follow));
    let counts = &mut tally.between;
    counts.images += 1;
    counts.pinned += u64::from(!given.pins.is_empty());
    counts.wrapped += u64::from(unwrapped != [sets.smaller.clone(), sets.larger.clone()]);
    counts.differ += u64::from(!sets.equal());
    counts.cut_alone += u64::from(!sets.equal() && sets.equal_where_whole());
    counts.agree += u64::from(sets.equal() && (0..image.len()).any(flashing));
    counts.orders += u64::from(ends.iter().any(|end| Some(traced(end)) != first));
}

fn is_traced(mark: u8) -> bool {
    mark == TRACED || mark == UNFOLLOWED
}

/// The positions of an image for which something holds.
fn places(length: usize, holds: impl Fn(usize) -> bool) -> Vec<u32> {
    let found = (0..length).filter(|at| holds(*at));
    found.map(|at| at as u32).collect()
}
