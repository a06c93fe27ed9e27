//! The packed map. The original has none. Where it traced an image to its end, what is built must be its own
//! mask, packed, and what is asked of that must be what the mask says. All else is document 02's.

mod queries;

use crate::lent::Lent;
use crate::ours;
use crate::run;
use crate::share;
use crate::steps::shown;
use crate::tally::{Call, Judge, Tally};
use crate::views::{self, Outcome};
use compare::images::{self, KINDS};
use compare::original::{traced, viewed};
use compare::paper::map::{self as paper, Query};
use compare::paper::{Mode, tracer, views as mask};
use compare::random::Random;
use pottagewing::Mark;

/// The lengths of images around a word's border and around each limit, and how many there are of one.
const LENGTHS: [(usize, usize, u64); 8] = [
    (0, 4, 60),
    (60, 68, 120),
    (124, 132, 120),
    (189, 195, 60),
    (1_022, 1_026, 24),
    (4_094, 4_098, 12),
    (65_470, 65_474, 6),
    (65_533, 65_540, 6),
];
const WALKS: u64 = 1_200;
const UPDATES: u64 = 4;
/// Visits after which the original is given up in a walk.
const ENOUGH: u64 = 4_000;
/// The marks are made in the original's mode. A map uses no target.
const MODE: Mode = Mode::Unwrapped;
/// A Ret, and a Nop, which goes on.
const RET: u8 = 0xA0;
const NOP: u8 = 0x00;

pub fn compare(tally: &mut Tally, random: &mut Random) {
    for (low, high, count) in LENGTHS {
        for length in low..=high {
            for turn in 0..share::times(count) {
                let image = image(random, length, turn);
                of_trace(tally, random, &image);
                of_step(tally, random, &image);
                of_marks(tally, random, &image);
                queries::of_words(tally, random, length as u32);
            }
        }
    }
    queries::compare(tally, random);
    (0..share::times(WALKS)).for_each(|_| walk(tally, random));
}

/// One of each kind in turn, and then one that is code from 0 up to some position.
fn image(random: &mut Random, length: usize, turn: u64) -> Vec<u8> {
    let turn = turn as usize % (KINDS.len() + 1);
    if let Some(kind) = KINDS.get(turn) {
        return images::image(*kind, length, random);
    }
    let mut image = vec![NOP; length];
    let end = random.below(length as u64 + 1) as usize;
    if let Some(byte) = image.get_mut(end) {
        *byte = RET;
    }
    image
}

/// An image with its marks, and its mask as the original has it.
struct Given<'a> {
    image: &'a [u8],
    marks: &'a [u8],
    told: Option<Vec<u8>>,
}

fn marks_after(image: &[u8], entries: &[u32], limit: u32) -> (Vec<u8>, Vec<u32>) {
    let (mut marks, mut order) = (vec![0; image.len()], vec![0; image.len()]);
    tracer::run(MODE, image, &mut marks, &mut order, entries, &[], limit);
    (marks, order)
}

/// Mostly the entry 0 first.
fn entries(random: &mut Random, image: &[u8]) -> Vec<u32> {
    let mut entries = images::entries(image.len(), random);
    if random.below(4) > 0 {
        entries.insert(0, 0);
    }
    entries
}

/// Over the marks of a run.
fn of_trace(tally: &mut Tally, random: &mut Random, image: &[u8]) {
    let entries = entries(random, image);
    let told = match image.len() {
        0..=tracer::LONGEST => traced::trace(&entries, image, run::visits(image)),
        _ => None,
    };
    let graph = told.and_then(|told| told.graph);
    let given = Given {
        image,
        marks: &marks_after(image, &entries, u32::MAX).0,
        told: graph.map(|graph| viewed::mask(&graph, image)),
    };
    given.all(tally, random);
}

/// Over marks of any content, damaged ones among them.
fn of_marks(tally: &mut Tally, random: &mut Random, image: &[u8]) {
    let given = Given {
        image,
        marks: &views::marks(random, image),
        told: None,
    };
    given.all(tally, random);
}

/// A map built within a run, a step, and the update: the map is the one built afresh.
fn of_step(tally: &mut Tally, random: &mut Random, image: &[u8]) {
    let entries = entries(random, image);
    let limit = random.below(image.len() as u64 + 1) as u32;
    let (mut marks, order) = marks_after(image, &entries, limit);
    let waiting = order
        .into_iter()
        .find(|at| marks.get(*at as usize) == Some(&(Mark::Waiting as u8)));
    let Some(position) = waiting else { return };
    let words = built(random, image, &marks);
    if tracer::step(MODE, image, &mut marks, position).done() {
        kept_up(tally, image, &marks, &words, position);
    }
}

/// A map in a room of some length, with what stood there past it.
fn built(random: &mut Random, image: &[u8], marks: &[u8]) -> Lent<u64> {
    let length = paper::needed(image.len()) + random.below(3) as usize;
    let words = Lent::filled(length, random, |mixed| mixed);
    views::outcome(&words, |words| paper::build(image, marks, words)).1
}

/// An update after a step, which leaves what a build would. Answers the words as they are to be then.
fn kept_up(
    tally: &mut Tally,
    image: &[u8],
    marks: &[u8],
    words: &Lent<u64>,
    position: u32,
) -> Lent<u64> {
    let given = Given {
        image,
        marks,
        told: None,
    };
    let expected = given.update(tally, words, position);
    let afresh = words
        .clone()
        .with(&paper::packed(&mask::mask_of(image, marks)));
    if expected != afresh {
        let input = || given.shown("a map kept up", position);
        tally.map_differs(|| format!("{}\n  {afresh:?}\n  {expected:?}", input()));
    }
    expected
}

impl Given<'_> {
    fn all(&self, tally: &mut Tally, random: &mut Random) {
        let needed = paper::needed(self.image.len());
        let more = needed + random.below(4) as usize;
        let fewer = needed.saturating_sub(1 + random.below(2) as usize);
        self.build(tally, random, needed);
        self.build(tally, random, fewer);
        let built = self.build(tally, random, more);
        if built.0.done() {
            let own = mask::mask_of(self.image, self.marks);
            let mask = self.told.as_ref().unwrap_or(&own);
            for _ in 0..queries::QUERIES {
                let query = queries::query(random, self.image.len() as u32);
                self.ask(tally, built.1.part(), mask, query);
            }
        }
        for _ in 0..UPDATES {
            let room = views::room(random, needed);
            let words = Lent::filled(room, random, |mixed| mixed);
            let words = match random.below(2) {
                0 => &built.1,
                _ => &words,
            };
            let position = self.position(random);
            self.update(tally, words, position);
        }
    }

    /// Mostly a position with one of the marks, whichever it is.
    fn position(&self, random: &mut Random) -> u32 {
        let mark = random.pick(&[0, 1, 2, 2, 2, 3]);
        let from = queries::position(random, self.image.len() as u32);
        let marks = self.marks.iter().enumerate().skip(from as usize);
        let found = marks
            .map(|(at, mark)| (at as u32, *mark))
            .find(|(_, known)| *known == mark);
        match random.below(4) {
            0 => from,
            _ => found.map_or(from, |(at, _)| at),
        }
    }

    /// Answers what is expected.
    fn build(&self, tally: &mut Tally, random: &mut Random, room: usize) -> Outcome<u64> {
        let (image, marks) = (self.image, self.marks);
        let room = Lent::filled(room, random, |mixed| mixed);
        let expected = views::outcome(&room, |words| paper::build(image, marks, words));
        let ours = views::outcome(&room, |words| ours::map_build(image, marks, words));
        let input = || self.shown("map build", 0);
        let judge = match &self.told {
            Some(told) if expected.0.done() => {
                let told = views::shows(&room, &paper::packed(told));
                if told != expected {
                    tally.table_differs(|| format!("{}\n  {expected:?}\n  {told:?}", input()));
                }
                Judge::Original
            }
            _ => Judge::Document,
        };
        let number = expected.0.number;
        let what = (Call::MapBuild, judge);
        tally.judge(what, None, (number, &expected), &ours, input);
        expected
    }

    /// Of words that were built from marks with this mask: the mask says what is to be answered.
    fn ask(&self, tally: &mut Tally, words: &[u64], mask: &[u8], query: Query) {
        let expected = paper::ask_mask(mask, query);
        let length = self.image.len() as u32;
        let plain = paper::ask(words, length, query);
        if plain != expected {
            let text = || {
                format!(
                    "{query:?} of {}\n  {expected:?}\n  {plain:?}",
                    shown(self.image)
                )
            };
            tally.map_differs(text);
        }
        let judge = match self.told {
            Some(_) if expected.done() => Judge::Original,
            _ => Judge::Document,
        };
        queries::judge(tally, judge, expected, words, length, query);
    }

    /// Answers the words as they are to be then.
    fn update(&self, tally: &mut Tally, words: &Lent<u64>, position: u32) -> Lent<u64> {
        let (image, marks) = (self.image, self.marks);
        let expected = views::outcome(words, |words| paper::update(image, marks, words, position));
        let ours = views::outcome(words, |words| {
            ours::map_update(image, marks, words, position)
        });
        let number = expected.0.number;
        let what = (Call::MapUpdate, Judge::Document);
        let input = || self.shown("map update", position);
        tally.judge(what, None, (number, &expected), &ours, input);
        expected.1
    }

    fn shown(&self, what: &str, position: u32) -> String {
        let marks = &self.marks[..self.marks.len().min(48)];
        format!(
            "{what} of {} marks {marks:?} at {position}",
            shown(self.image)
        )
    }
}

/// A map built after a start and updated after each step, in the order of the original's first visits. Before
/// its step a position is refused; in the end the map must be the original's mask, packed.
fn walk(tally: &mut Tally, random: &mut Random) {
    let length = random.pick(&[16, 64, 65, 66, 128, 130, 200]);
    let image = images::image(random.pick(&KINDS), length, random);
    let entries = entries(random, &image);
    let Some(told) = traced::trace(&entries, &image, ENOUGH) else {
        return;
    };
    let Some(graph) = told.graph else { return };
    let mut marks = vec![0xFF; length];
    tracer::start(&image, &mut marks, &entries, &[]);
    let before = built(random, &image, &marks);
    let (mut words, mut ours) = (before.clone(), before.clone());
    for position in told.taken {
        let given = Given {
            image: &image,
            marks: &marks,
            told: None,
        };
        given.update(tally, &words, position);
        tracer::step(MODE, &image, &mut marks, position);
        words = kept_up(tally, &image, &marks, &words, position);
        ours::map_update(&image, &marks, ours.lend(), position);
    }
    let expected = before.with(&paper::packed(&viewed::mask(&graph, &image)));
    let what = (Call::MapUpdate, Judge::Original);
    let input = || format!("a map kept up of {} entries {entries:?}", shown(&image));
    tally.judge(what, None, (0, &expected), &ours, input);
}
