//! One run, with lent memory of some lengths and some limit. Document 01's run, as this harness has it,
//! says all that is to be answered and left; what of it can be seen in the original must be as it is there. In
//! wrapping mode, which the original does not have, the plain run judges alone.

use crate::lent::Lent;
use crate::ours;
use crate::sweeps;
use crate::tally::{Call, Judge, Tally};
use crate::views;
use crate::wrapping;
use compare::answer::Answer;
use compare::images;
use compare::original::traced;
use compare::paper::{Mode, tracer, views as plain};
use compare::random::Random;
use compare::seen::Seen;
use pottagewing::Mark;

/// What a run is given.
struct Given<'a> {
    image: &'a [u8],
    marks: Lent<u8>,
    order: Lent<u32>,
    entries: &'a [u32],
    pins: Vec<u32>,
    limit: u32,
}

/// What a run answers and leaves, and what of that the original tells too.
#[derive(PartialEq, Debug)]
struct Outcome {
    answer: Answer,
    marks: Lent<u8>,
    order: Lent<u32>,
    seen: Option<Seen>,
}

/// A function that runs, ours or document 01's.
type Run = fn(Mode, &[u8], &mut [u8], &mut [u32], &[u32], &[u32], u32) -> Answer;

pub fn one(tally: &mut Tally, random: &mut Random, image: &[u8], entries: &[u32]) {
    let mut given = Given::new(random, image, entries);
    let refused = given.is_refused();
    let told = match refused {
        true => None,
        false => traced::trace(entries, image, visits(image)),
    };
    tally.traces.capped += u64::from(!refused && told.is_none());
    let taken = told.as_ref().map_or(0, |told| told.taken.len());
    given.limit = limit(random, image, taken);
    let known = told.as_ref().map(|told| told.unfollowed.is_some());
    let mode = Mode::Unwrapped;
    let mut expected = given.run(tracer::run, mode, known);
    let ours = given.run(ours::run, mode, known);
    let seen = told.as_ref().map(|told| told.under(given.limit));
    if seen != expected.seen {
        let paper = &expected.seen;
        tally.table_differs(|| format!("{}\n  {paper:?}\n  {seen:?}", given.shown()));
    }
    expected.seen = seen;
    count(tally, image, &expected);
    let judge = match expected.seen {
        Some(_) => Judge::Original,
        None => Judge::Document,
    };
    judge_as(judge, tally, &given, &expected, &ours);
    sweeps::of_trace(tally, random, image, entries, told.as_ref());
    wrapping::of_trace(tally, random, image, entries);
    pinned(tally, random, image, entries);
    if let Some(graph) = told.and_then(|told| told.graph) {
        views::of_trace(tally, random, image, entries, &graph);
    }
}

/// In wrapping mode, with a limit around the steps that there are then.
pub fn wrapping(tally: &mut Tally, random: &mut Random, image: &[u8], entries: &[u32]) {
    let mut given = Given::new(random, image, entries);
    given.limit = u32::MAX;
    let whole = given.run(tracer::run, Mode::Wrapping, None);
    given.limit = limit(random, image, given.taken(&whole));
    let expected = given.run(tracer::run, Mode::Wrapping, None);
    let ours = given.run(ours::run, Mode::Wrapping, None);
    judge_as(Judge::Wrapping, tally, &given, &expected, &ours);
    let unwrapped = given.run(ours::run, Mode::Unwrapped, None);
    if given.is_refused() || plain::stays(image, unwrapped.marks.part()) {
        judge_alike(tally, &given, &unwrapped, &ours);
    }
    tally.wrapping.runs += u64::from(unwrapped.marks != ours.marks);
}

/// With pins, which the original does not have, in either mode.
fn pinned(tally: &mut Tally, random: &mut Random, image: &[u8], entries: &[u32]) {
    let mut given = Given::new(random, image, entries);
    given.limit = u32::MAX;
    let (mode, judge) = random.pick(&[
        (Mode::Unwrapped, Judge::Document),
        (Mode::Wrapping, Judge::Wrapping),
    ]);
    let whole = given.run(tracer::run, mode, None);
    let taken = given.taken(&whole);
    let pins = images::pins(image, entries, whole.order.part(), random);
    given.limit = limit(random, image, taken);
    let without = given.run(tracer::run, mode, None);
    given.pins = pins;
    let expected = given.run(tracer::run, mode, None);
    let ours = given.run(ours::run, mode, None);
    judge_as(judge, tally, &given, &expected, &ours);
    count_pinned(tally, &given, &without, &expected);
    sweeps::with_pins(tally, random, (mode, image, entries), &given.pins);
}

/// Counts a run that was given a pin, and whether it traces others than without, beside the pins.
fn count_pinned(tally: &mut Tally, given: &Given, without: &Outcome, expected: &Outcome) {
    if given.pins.is_empty() {
        return;
    }
    tally.pinned.runs += 1;
    if given.is_refused() {
        return;
    }
    let (before, after) = (without.marks.part(), expected.marks.part());
    let is_traced = |mark| matches!(Mark::of(mark), Some(Mark::Traced | Mark::Flash));
    let is_other = |at: usize| {
        after[at] != Mark::Pinned as u8 && is_traced(before[at]) != is_traced(after[at])
    };
    tally.pinned.other += u64::from((0..given.image.len()).any(is_other));
}

/// Where nothing that is taken up leaves memory, both modes answer and leave the same.
fn judge_alike(tally: &mut Tally, given: &Given, unwrapped: &Outcome, ours: &Outcome) {
    let number = unwrapped.answer.number;
    let what = (Call::ModesAlike, Judge::Wrapping);
    tally.judge(what, None, (number, unwrapped), ours, || given.shown());
}

fn judge_as(judge: Judge, tally: &mut Tally, given: &Given, expected: &Outcome, ours: &Outcome) {
    let number = expected.answer.number;
    let what = (Call::Run, judge);
    tally.judge(what, None, (number, expected), ours, || given.shown());
}

/// The length of what is lent: mostly enough, and more as often.
pub fn lent(random: &mut Random, image: &[u8]) -> usize {
    match random.below(64) {
        0 => image.len().saturating_sub(1 + random.below(3) as usize),
        1..32 => image.len(),
        _ => image.len() + random.below(5) as usize,
    }
}

/// How often the original may take a position up before it is given up.
pub fn visits(image: &[u8]) -> u64 {
    1_000 + 16 * image.len() as u64
}

/// Half of the runs have no limit that they meet, the others one around the steps that there are.
fn limit(random: &mut Random, image: &[u8], taken: usize) -> u32 {
    let taken = taken as u32;
    match random.below(16) {
        0..4 => u32::MAX,
        4..8 => image.len() as u32,
        8..10 => taken,
        10 => taken + 1,
        11 => taken.saturating_sub(1),
        12 => 0,
        13 => 1,
        _ => random.below(u64::from(taken) + 2) as u32,
    }
}

/// Counts what the run came to.
fn count(tally: &mut Tally, image: &[u8], expected: &Outcome) {
    let traces = &mut tally.traces;
    match (expected.answer.number, expected.answer.values[0]) {
        (Answer::DONE, 1) => traces.finished += 1,
        (Answer::DONE, _) => traces.stopped += 1,
        (Answer::CUT_OFF, _) => traces.cut_off += 1,
        _ => return,
    }
    let marks = expected.marks.part();
    let with = |mark: u8| (0..image.len()).filter(move |at| marks[*at] == mark);
    let after = |at: usize| at >= 2 && image[at - 2..=at] == [0xB8, 0x0D, 0x21];
    traces.unfollowed += u64::from(with(3).next().is_some());
    traces.followed += u64::from(with(2).any(after));
    let taken = with(2).chain(with(3)).map(|at| image[at]);
    traces.most = traces.most.max(taken.clone().count());
    tally.taken(taken);
}

impl<'a> Given<'a> {
    /// The limit is left to be set.
    fn new(random: &mut Random, image: &'a [u8], entries: &'a [u32]) -> Given<'a> {
        Given {
            image,
            marks: Lent::filled(lent(random, image), random, |mixed| mixed as u8),
            order: Lent::filled(lent(random, image), random, |mixed| mixed as u32),
            entries,
            pins: vec![],
            limit: 0,
        }
    }

    /// How many positions were taken up, where it was not refused.
    fn taken(&self, outcome: &Outcome) -> usize {
        match self.is_refused() {
            true => 0,
            false => tracer::traced(self.image, outcome.marks.part()),
        }
    }

    /// Whether the original has no part in it.
    fn is_refused(&self) -> bool {
        let shortest = self.marks.part().len().min(self.order.part().len());
        self.image.len() > tracer::LONGEST.min(shortest)
    }

    /// Runs over a copy of the lent memory. Where the original tells something of the trace, that is
    /// read off.
    fn run(&self, run: Run, mode: Mode, known: Option<bool>) -> Outcome {
        let (mut marks, mut order) = (self.marks.clone(), self.order.clone());
        let (image, entries) = (self.image, self.entries);
        let (pins, limit) = (&self.pins, self.limit);
        let answer = run(
            mode,
            image,
            marks.lend(),
            order.lend(),
            entries,
            pins,
            limit,
        );
        let seen = known.map(|known| {
            let marks = &marks.part()[..image.len()];
            Seen::of(&answer, marks, order.part(), known)
        });
        Outcome {
            answer,
            marks,
            order,
            seen,
        }
    }

    fn shown(&self) -> String {
        let (length, limit) = (self.image.len(), self.limit);
        let beginning = &self.image[..length.min(48)];
        let (entries, pins) = (self.entries, &self.pins);
        format!(
            "run of {length} bytes {beginning:02X?} entries {entries:?} pins {pins:?} limit {limit}"
        )
    }
}
