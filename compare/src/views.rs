//! The views. On what the original traced to its end they are held against its own mask, labels, overlaps,
//! `jump_from` sets and data, as far as these lie inside the image. On marks of any content document 01
//! judges alone, and in wrapping mode document 02.

use crate::lent::Lent;
use crate::listing;
use crate::ours;
use crate::rings;
use crate::share;
use crate::steps::{self, shown};
use crate::tally::{Call, Judge, Tally};
use compare::answer::Answer;
use compare::images::{self, KINDS};
use compare::original::viewed;
use compare::paper::{Mode, flow, views as paper};
use compare::random::Random;
use std::fmt::{Debug, UpperHex};
use waterbear::disasm::probe::Graph;

const CALLS: u64 = 1_000_000;
const RUNS: u64 = 300_000;
/// In wrapping mode, on short images, and on images that lead over the end of memory.
const WRAPPING_CALLS: u64 = 200_000;
const RINGS: u64 = 800;
/// Images up to this length are looked at in every position, longer ones in so many.
const SHORT: usize = 16;
const SOME: usize = 8;
/// The first byte of a Jmpf.
const JMPF: u8 = 0x21;

/// An image with its marks, and the trace of the original that they come from.
struct Views<'a> {
    tally: &'a mut Tally,
    random: &'a mut Random,
    mode: Mode,
    image: &'a [u8],
    marks: &'a [u8],
    graph: Option<&'a Graph>,
}

/// What a view answers and leaves.
#[derive(PartialEq, Debug)]
pub struct Outcome<T: Copy + UpperHex>(pub Answer, pub Lent<T>);

/// The marks are those of our own run.
pub fn of_trace(
    tally: &mut Tally,
    random: &mut Random,
    image: &[u8],
    entries: &[u32],
    graph: &Graph,
) {
    let (marks, order) = ran(Mode::Unwrapped, image, entries).1;
    let positions = positions(random, image, &order);
    let mask = viewed::mask(graph, image);
    let mut views = Views {
        tally,
        random,
        mode: Mode::Unwrapped,
        image,
        marks: &marks,
        graph: Some(graph),
    };
    views.mask();
    views.target_marks();
    for position in positions {
        views.overlaps(position);
        views.arrivals(position);
        data_run(views.tally, image, &mask, position);
    }
    listing::of_trace(tally, random, image, &marks, entries);
}

/// In wrapping mode, over the marks of our own run, where it is not cut off.
pub fn wrapping(tally: &mut Tally, random: &mut Random, image: &[u8], entries: &[u32]) {
    let (answer, (marks, order)) = ran(Mode::Wrapping, image, entries);
    if !answer.done() {
        return;
    }
    let mut positions = positions(random, image, &order);
    positions.extend(arrived(random, image, &order));
    let mut views = Views {
        tally,
        random,
        mode: Mode::Wrapping,
        image,
        marks: &marks,
        graph: None,
    };
    views.target_marks();
    for position in positions {
        views.arrivals(position);
    }
    listing::wrapping(tally, random, image, &marks);
}

/// Our run without a limit: its answer, the marks, and the positions noted.
fn ran(mode: Mode, image: &[u8], entries: &[u32]) -> (Answer, (Vec<u8>, Vec<u32>)) {
    let (mut marks, mut order) = (vec![0; image.len()], vec![0; image.len()]);
    let answer = ours::run(mode, image, &mut marks, &mut order, entries, &[], u32::MAX);
    order.truncate(answer.values[2] as usize);
    (answer, (marks, order))
}

/// Some positions at which those arrive that leave memory, of the positions noted.
fn arrived(random: &mut Random, image: &[u8], noted: &[u32]) -> Vec<u32> {
    let leaving = rings::leaving(image, noted.iter().copied());
    let count = SOME.min(leaving.len());
    let mut target = || {
        let from = random.pick(&leaving) as usize;
        let targets = flow::targets_at(Mode::Wrapping, image, from);
        random.pick(&targets) as u32
    };
    (0..count).map(|_| target()).collect()
}

/// All positions of a short image and the one past its end; of a longer one some.
fn positions(random: &mut Random, image: &[u8], noted: &[u32]) -> Vec<u32> {
    match image.len() {
        length if length <= SHORT => (0..=length as u32).collect(),
        length => (0..SOME).map(|_| position(random, length, noted)).collect(),
    }
}

/// A position that was noted, one beside it, any inside, or one outside.
fn position(random: &mut Random, length: usize, noted: &[u32]) -> u32 {
    let one = |random: &mut Random| noted.first().map_or(0, |_| random.pick(noted));
    match random.below(16) {
        0..7 => one(random),
        7 | 8 => one(random).saturating_sub(1),
        9..12 => one(random) + 1,
        12 => random.pick(&[length as u32, length as u32 + 1, 65_536, u32::MAX]),
        _ => random.below(length.max(1) as u64) as u32,
    }
}

pub fn compare(tally: &mut Tally, random: &mut Random) {
    let mode = Mode::Unwrapped;
    for _ in 0..share::times(CALLS) {
        let image = steps::short(random);
        any_marks(mode, tally, random, &image);
    }
    for length in 65_530..=65_540 {
        for kind in KINDS {
            let image = images::image(kind, length, random);
            (0..share::times(8)).for_each(|_| any_marks(mode, tally, random, &image));
        }
    }
    for _ in 0..share::times(RUNS) {
        any_mask(tally, random);
    }
}

/// Over marks of any content.
pub fn compare_wrapping(tally: &mut Tally, random: &mut Random) {
    for _ in 0..share::times(WRAPPING_CALLS) {
        let image = steps::short(random);
        any_marks(Mode::Wrapping, tally, random, &image);
    }
    for _ in 0..share::times(RINGS) {
        let (image, _) = rings::image(random);
        any_marks(Mode::Wrapping, tally, random, &image);
    }
}

/// One view over marks of any content. In wrapping mode it is one that uses targets.
fn any_marks(mode: Mode, tally: &mut Tally, random: &mut Random, image: &[u8]) {
    let marks = marks(random, image);
    let position = match mode {
        Mode::Unwrapped => position(random, image.len(), &[]),
        Mode::Wrapping => rings::position(random, image.len()),
    };
    let view = match mode {
        Mode::Unwrapped => random.below(8),
        Mode::Wrapping => random.pick(&[1, 4, 5, 6]),
    };
    if view >= 6 {
        return listing::of_marks(mode, tally, random, image, &marks);
    }
    let mut views = Views {
        tally,
        random,
        mode,
        image,
        marks: &marks,
        graph: None,
    };
    match view {
        0 => views.mask(),
        1 => views.target_marks(),
        2 | 3 => views.overlaps(position),
        _ => views.arrivals(position),
    }
}

/// Marks of any content; three times in four they are mended, and at times damaged again in one place.
pub fn marks(random: &mut Random, image: &[u8]) -> Vec<u8> {
    let length = match random.below(24) {
        0 => image.len().saturating_sub(1 + random.below(2) as usize),
        1..12 => image.len(),
        _ => image.len() + random.below(4) as usize,
    };
    let mut marks: Vec<u8> = (0..length).map(|_| steps::mark(random.any())).collect();
    if random.below(4) == 0 {
        return marks;
    }
    for (at, mark) in marks.iter_mut().enumerate().take(image.len()) {
        let whole = at + flow::size(image[at]) <= image.len();
        *mark = match (*mark % 5, whole) {
            (2 | 3, false) => 1,
            (3, true) if image[at] != JMPF => 2,
            (mark, _) => mark,
        };
    }
    if random.below(4) == 0 && !marks.is_empty() {
        let at = random.below(marks.len() as u64) as usize;
        marks[at] = random.pick(&[2, 3, 3, 5, 9, 255]);
    }
    marks
}

/// A view, ours or document 01's. What uses no target is not told the mode.
type OfBytes = fn(Mode, &[u8], &[u8], &mut [u8]) -> Answer;
type OfPlaces = fn(Mode, &[u8], &[u8], u32, &mut [u32]) -> Answer;

impl Views<'_> {
    fn mask(&mut self) {
        let told = self.graph.map(|graph| viewed::mask(graph, self.image));
        let paper: OfBytes = |_, image, marks, room| paper::mask(image, marks, room);
        let ours: OfBytes = |_, image, marks, room| ours::mask(image, marks, room);
        self.bytes(Call::Mask, told, [paper, ours]);
    }

    fn target_marks(&mut self) {
        let told = self
            .graph
            .map(|graph| viewed::target_marks(graph, self.image));
        self.bytes(
            Call::TargetMarks,
            told,
            [paper::target_marks, ours::target_marks],
        );
    }

    fn overlaps(&mut self, position: u32) {
        let told = self.graph.map(|graph| viewed::overlaps(graph, position));
        let paper: OfPlaces = |_, image, marks, at, room| paper::overlaps(image, marks, at, room);
        let ours: OfPlaces = |_, image, marks, at, room| ours::overlaps(image, marks, at, room);
        self.places(Call::Overlaps, position, told, [paper, ours]);
    }

    fn arrivals(&mut self, position: u32) {
        let told = |graph| viewed::arrivals(graph, self.image, position);
        let told = self.graph.and_then(told);
        self.places(
            Call::Arrivals,
            position,
            told,
            [paper::arrivals, ours::arrivals],
        );
    }

    fn bytes(&mut self, call: Call, told: Option<Vec<u8>>, views: [OfBytes; 2]) {
        let (image, marks) = (self.image, self.marks);
        let length = room(self.random, image.len());
        let room = Lent::filled(length, self.random, |mixed| mixed as u8);
        let view = |view: OfBytes, mode| outcome(&room, |room| view(mode, image, marks, room));
        let [paper, ours] = views.map(|side| view(side, self.mode));
        if self.mode == Mode::Wrapping {
            self.judge_alike(call, 0, &view(views[1], Mode::Unwrapped), &ours);
        }
        self.judge(call, 0, told.map(|list| shows(&room, &list)), paper, ours);
    }

    fn places(&mut self, call: Call, position: u32, told: Option<Vec<u32>>, views: [OfPlaces; 2]) {
        let (image, marks) = (self.image, self.marks);
        let some = self.random.below(4) as usize;
        let length = room(self.random, told.as_ref().map_or(some, Vec::len));
        let room = Lent::filled(length, self.random, |mixed| mixed as u32);
        let view =
            |view: OfPlaces, mode| outcome(&room, |room| view(mode, image, marks, position, room));
        let [paper, ours] = views.map(|side| view(side, self.mode));
        if self.mode == Mode::Wrapping {
            self.judge_alike(call, position, &view(views[1], Mode::Unwrapped), &ours);
        }
        let told = told.map(|list| shows(&room, &list));
        self.judge(call, position, told, paper, ours);
    }

    /// Where nothing that is traced leaves memory both modes show the same, and where the marks are refused.
    fn judge_alike<T: Copy + PartialEq + Debug + UpperHex>(
        &mut self,
        call: Call,
        position: u32,
        unwrapped: &Outcome<T>,
        ours: &Outcome<T>,
    ) {
        let number = unwrapped.0.number;
        let refused = !unwrapped.0.done() && number != Answer::NO_ROOM;
        if refused || paper::stays(self.image, self.marks) {
            let what = (Call::ModesAlike, Judge::Wrapping);
            let image = self.image;
            self.tally.judge(what, None, (number, unwrapped), ours, || {
                format!("{call:?} of {} at {position}", shown(image))
            });
        }
        let others = match call {
            Call::Arrivals => &mut self.tally.wrapping.arrivals,
            _ => &mut self.tally.wrapping.target_marks,
        };
        *others += u64::from(unwrapped != ours);
    }

    /// The original has no refusals: where document 01 has one, it judges alone.
    fn judge<T: Copy + PartialEq + Debug + UpperHex>(
        &mut self,
        call: Call,
        position: u32,
        told: Option<Outcome<T>>,
        paper: Outcome<T>,
        ours: Outcome<T>,
    ) {
        let (image, marks) = (self.image, &self.marks[..self.marks.len().min(48)]);
        let mode = self.mode;
        let input = || {
            let image = shown(image);
            format!("{mode:?} {call:?} of {image} marks {marks:?} at {position}")
        };
        let (judge, expected) = match told {
            Some(told) if paper.0.done() => {
                if told != paper {
                    let text = || format!("{}\n  {paper:?}\n  {told:?}", input());
                    self.tally.table_differs(text);
                }
                (Judge::Original, told)
            }
            _ if mode == Mode::Wrapping => (Judge::Wrapping, paper),
            _ => (Judge::Document, paper),
        };
        let number = expected.0.number;
        let what = (call, judge);
        self.tally
            .judge(what, None, (number, &expected), &ours, input);
    }
}

/// The length of a room: mostly enough, and more as often.
pub fn room(random: &mut Random, needed: usize) -> usize {
    match random.below(32) {
        0 => needed.saturating_sub(1 + random.below(3) as usize),
        1..16 => needed,
        _ => needed + random.below(5) as usize,
    }
}

pub fn outcome<T: Copy + UpperHex>(
    room: &Lent<T>,
    view: impl FnOnce(&mut [T]) -> Answer,
) -> Outcome<T> {
    let mut room = room.clone();
    let answer = view(room.lend());
    Outcome(answer, room)
}

/// What a view is to answer and leave that shows this list, where there is room.
pub fn shows<T: Copy + UpperHex>(room: &Lent<T>, list: &[T]) -> Outcome<T> {
    let answer = Answer::new(Answer::DONE, &[list.len() as i64]);
    Outcome(answer, room.clone().with(list))
}

/// A data run over a mask of any content and length.
fn any_mask(tally: &mut Tally, random: &mut Random) {
    let length = random.below(48) as usize;
    let image = images::image(random.pick(&KINDS), length, random);
    let masked = random.pick(&[4, 16, 64]);
    let count = match random.below(8) {
        0 => random.below(length as u64 + 1) as usize,
        1..5 => length,
        _ => length + random.below(4) as usize,
    };
    let mut byte = || match random.below(masked) {
        0 => random.pick(&[1, 1, 2, 255]),
        _ => 0,
    };
    let mask: Vec<u8> = (0..count).map(|_| byte()).collect();
    data_run(tally, &image, &mask, position(random, length, &[]));
}

fn data_run(tally: &mut Tally, image: &[u8], mask: &[u8], position: u32) {
    let paper = paper::data_run(image, mask, position);
    let told = viewed::data_run(image, mask, position);
    let input = || format!("data run of {} mask {mask:?} at {position}", shown(image));
    if told.is_some_and(|told| told != paper) {
        tally.table_differs(|| format!("{}\n  {paper:?}\n  {told:?}", input()));
    }
    let judge = match told {
        Some(_) => Judge::Original,
        None => Judge::Document,
    };
    let ours = ours::data_run(image, mask, position);
    let expected = told.unwrap_or(paper);
    tally.judge(
        (Call::DataRun, judge),
        None,
        (expected.number, &expected),
        &ours,
        input,
    );
}
