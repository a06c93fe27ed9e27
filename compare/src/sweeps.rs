//! The engine that sweeps. The original has none: a plain one by document 02 judges. Where no B8 0D 21 stands in the
//! image, so do what the original traced and what our own run leaves: the marks of a trace that finishes are the same,
//! and a position is left waiting exactly where it is cut off. In wrapping mode the plain engine and our run judge alone.

mod planned;

use crate::lent::Lent;
use crate::ours;
use crate::run;
use crate::share;
use crate::steps;
use crate::tally::{Call, Judge, Tally};
use compare::answer::Answer;
use compare::images::{self, Kind};
use compare::original::traced::Told;
use compare::paper::{Mode, sweep as paper, views};
use compare::random::Random;
use pottagewing::Mark;

/// Numbers of their own, so that the other comparisons are the same with this one and without.
const OWN: u64 = 0x5EED_50E3;
/// Of the traced images up to a length, one of so many is swept.
const SOME: [(usize, u64); 3] = [(40, 12), (300, 4), (70_000, 1)];
/// What may stand around B8 0D 21: its own bytes, a Br and a Bz, which F9 leads back, and what ends or goes on.
const AROUND: [u8; 8] = [0xB8, 0x0D, 0x21, 0x00, 0x01, 0x80, 0xF9, 0xA0];
/// Images by chance that are rich in B8 0D 21.
const FLASHING: u64 = 40_000;
/// Images whose sweeps are counted beforehand.
const PLANNED: u64 = 6_000;
const WAITING: u8 = Mark::Waiting as u8;
const TRACED: u8 = Mark::Traced as u8;

/// Images and entries with nothing to sweep, nothing to take, or something cut off.
const EDGES: [&[u8]; 7] = [
    &[],
    &[0x00],
    &[0xA0],
    &[0x68],
    &[0x01, 0xFE],
    &[0x01, 0x7F],
    &[0x00, 0x80, 0x00, 0x68],
];
const EDGE_ENTRIES: [&[u32]; 9] = [
    &[],
    &[0],
    &[1],
    &[0, 0],
    &[3, 0],
    &[4],
    &[65_535],
    &[65_536],
    &[u32::MAX],
];

/// What an engine is given.
struct Given<'a> {
    mode: Mode,
    image: &'a [u8],
    entries: &'a [u32],
    pins: &'a [u32],
    marks: Lent<u8>,
}

/// What an engine answers and leaves.
#[derive(PartialEq, Debug)]
struct Outcome(Answer, Lent<u8>);

/// What a run says of sweeps: whether a position is left waiting, and where it finished, the steps and the marks.
#[derive(PartialEq, Debug)]
struct AsRun {
    waiting: bool,
    finished: Option<(i64, Lent<u8>)>,
}

/// A function that sweeps, ours or the plain one.
type Sweep = fn(Mode, &[u8], &mut [u8], &[u32], &[u32]) -> Answer;

/// An image whose run is compared too.
pub fn of_trace(
    tally: &mut Tally,
    random: &Random,
    image: &[u8],
    entries: &[u32],
    told: Option<&Told>,
) {
    let mut random = Random(random.0 ^ OWN);
    let of_length = SOME.iter().find(|(most, _)| image.len() <= *most);
    let (_, of) = *of_length.expect("an image that was traced");
    if random.below(of) == 0 {
        Given::new(&mut random, image, entries).compare(tally, told);
    }
}

/// In wrapping mode.
pub fn wrapping(tally: &mut Tally, random: &mut Random, image: &[u8], entries: &[u32]) {
    let mut given = Given::new(random, image, entries);
    given.mode = Mode::Wrapping;
    if given.compare(tally, None).done() {
        given.compare_modes(tally);
    }
}

pub fn compare(tally: &mut Tally, random: &mut Random) {
    for image in EDGES {
        for entries in EDGE_ENTRIES {
            for _ in 0..share::times(16) {
                Given::new(random, image, entries).compare(tally, None);
            }
        }
    }
    lengths(tally, random);
    around(tally, random);
    for _ in 0..share::times(FLASHING) {
        let length = random.below(64) as usize;
        let image = images::image(Kind::Flashing, length, random);
        let entries = images::entries(length, random);
        Given::new(random, &image, &entries).compare(tally, None);
    }
    for turn in 0..share::times(PLANNED) {
        planned(tally, random, turn);
    }
}

/// With pins: a mode, an image and entries.
pub fn with_pins(
    tally: &mut Tally,
    random: &mut Random,
    (mode, image, entries): (Mode, &[u8], &[u32]),
    pins: &[u32],
) {
    let mut given = Given::new(random, image, entries);
    (given.mode, given.pins) = (mode, pins);
    given.compare(tally, None);
    tally.pinned.sweeps += u64::from(!pins.is_empty());
}

/// Refusals 1 and 2, and both at once, on both sides of each limit.
fn lengths(tally: &mut Tally, random: &mut Random) {
    for length in [0, 1, 2, 300, 65_535, 65_536, 65_537, 65_540] {
        let image = &images::image(Kind::Uniform, length, random);
        for lent in [0, 1, length.saturating_sub(1), length, length + 1, 65_537] {
            let entries = &images::entries(length, random);
            let marks = Lent::filled(lent, random, |mixed| mixed as u8);
            let given = Given {
                mode: Mode::Unwrapped,
                image,
                entries,
                pins: &[],
                marks,
            };
            given.compare(tally, None);
        }
    }
}

/// B8 0D 21 to each position of ten bytes, with every four bytes around it.
fn around(tally: &mut Tally, random: &mut Random) {
    for bytes in images::strings(&AROUND, 4).step_by(share::stride()) {
        let [a, b, c, d] = bytes[..] else {
            unreachable!("strings of four");
        };
        for to in 0..10 {
            let image = [a, b, 0xB8, 0x0D, 0x21, 0x00, to, c, d, 0xA0];
            for entries in [&[0][..], &[4], &[7, 4], &[4, 2]] {
                Given::new(random, &image, entries).compare(tally, None);
            }
        }
    }
}

/// An image of which it is known how often it is swept.
fn planned(tally: &mut Tally, random: &mut Random, turn: u64) {
    let (image, entry, sweeps) = planned::image(random, turn);
    let entries = [entry];
    let given = Given::new(random, &image, &entries);
    let answer = given.compare(tally, None);
    if answer.done() && answer.values[0] != sweeps {
        tally.sweeps_differ(|| format!("{sweeps} of {}", given.shown()));
    }
}

impl<'a> Given<'a> {
    fn new(random: &mut Random, image: &'a [u8], entries: &'a [u32]) -> Given<'a> {
        let marks = Lent::filled(run::lent(random, image), random, |mixed| mixed as u8);
        Given {
            mode: Mode::Unwrapped,
            image,
            entries,
            pins: &[],
            marks,
        }
    }

    /// Ours with the plain engine, with what the original traced, if it was asked, and with our run: what is to be
    /// answered.
    fn compare(&self, tally: &mut Tally, told: Option<&Told>) -> Answer {
        let mode = self.mode;
        let expected = self.swept(paper::sweep, mode);
        let ours = self.swept(ours::sweep, mode);
        let answer = expected.0;
        let told = told.filter(|_| answer.done() && !images::has_flash(self.image));
        if told.is_some_and(|told| !agrees(told, self.marks_of(&expected))) {
            tally.table_differs(|| self.shown());
        }
        let judge = match told.map(|told| told.cut_off) {
            Some(None) => Judge::Original,
            _ => self.judge(),
        };
        let what = (Call::Sweep, judge);
        tally.judge(what, None, (answer.number, &expected), &ours, || {
            self.shown()
        });
        if answer.done() {
            self.count(tally, &expected);
            self.compare_with_run(tally, &ours);
        }
        answer
    }

    /// Who judges where the original does not.
    fn judge(&self) -> Judge {
        match self.mode {
            Mode::Unwrapped => Judge::Document,
            Mode::Wrapping => Judge::Wrapping,
        }
    }

    /// Where nothing that is taken up leaves memory, both modes answer and leave the same.
    fn compare_modes(&self, tally: &mut Tally) {
        let unwrapped = self.swept(ours::sweep, Mode::Unwrapped);
        let ours = self.swept(ours::sweep, Mode::Wrapping);
        if views::stays(self.image, self.marks_of(&unwrapped)) {
            let what = (Call::ModesAlike, Judge::Wrapping);
            tally.judge(what, None, (0, &unwrapped), &ours, || self.shown());
        }
        tally.wrapping.sweeps += u64::from(unwrapped.1 != ours.1);
    }

    fn swept(&self, sweep: Sweep, mode: Mode) -> Outcome {
        let mut marks = self.marks.clone();
        let answer = sweep(mode, self.image, marks.lend(), self.entries, self.pins);
        Outcome(answer, marks)
    }

    /// The marks of the image's own positions.
    fn marks_of<'b>(&self, outcome: &'b Outcome) -> &'b [u8] {
        &outcome.1.part()[..self.image.len()]
    }

    fn is_waiting(&self, outcome: &Outcome) -> bool {
        self.marks_of(outcome).contains(&WAITING)
    }

    /// What they came to, unwrapped.
    fn count(&self, tally: &mut Tally, expected: &Outcome) {
        if self.mode == Mode::Wrapping {
            return;
        }
        let sweeps = expected.0.values[0];
        let counts = &mut tally.sweeps;
        match sweeps {
            1 => counts.none += 1,
            2 => counts.one += 1,
            _ => counts.more += 1,
        }
        counts.most = counts.most.max(sweeps);
        counts.waiting += u64::from(self.is_waiting(expected));
    }

    /// Our run from the same entries over the same lent marks. Where B8 0D 21 stands, it may leave others.
    fn compare_with_run(&self, tally: &mut Tally, swept: &Outcome) {
        let (mut marks, mut order) = (self.marks.clone(), vec![0; self.image.len()]);
        let (image, entries, limit) = (self.image, self.entries, self.image.len() as u32);
        let answer = ours::run(
            self.mode,
            image,
            marks.lend(),
            &mut order,
            entries,
            self.pins,
            limit,
        );
        let finished = answer.done();
        if images::has_flash(image) {
            if self.mode == Mode::Unwrapped {
                tally.sweeps.flashing += 1;
                tally.sweeps.other += u64::from(finished && marks != swept.1);
            }
            return;
        }
        let expected = AsRun {
            waiting: answer.number == Answer::CUT_OFF,
            finished: finished.then_some((answer.values[1], marks)),
        };
        let ours = AsRun {
            waiting: self.is_waiting(swept),
            finished: finished.then(|| (swept.0.values[1], swept.1.clone())),
        };
        let what = (Call::SweepAsRun, self.judge());
        tally.judge(what, None, (answer.number, &expected), &ours, || {
            self.shown()
        });
    }

    fn shown(&self) -> String {
        let (mode, image) = (self.mode, steps::shown(self.image));
        let (entries, pins) = (self.entries, self.pins);
        format!("{mode:?} sweeps of {image} entries {entries:?} pins {pins:?}")
    }
}

/// Whether marks say what the original traced.
fn agrees(told: &Told, marks: &[u8]) -> bool {
    if told.cut_off.is_some() {
        return marks.contains(&WAITING);
    }
    let mut expected = vec![0; marks.len()];
    told.taken
        .iter()
        .for_each(|at| expected[*at as usize] = TRACED);
    marks == expected
}
