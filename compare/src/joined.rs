//! Entry lists joined, document 02's W9, over images in which no B8 0D 21 stands. The original has no such law, and no side
//! is asked but ours: what is left of two lists joined is held against what is left of each of them.

use crate::lent::Lent;
use crate::ours;
use crate::rings;
use crate::share;
use crate::steps::shown;
use crate::tally::{Call, Judge, Tally};
use compare::answer::Answer;
use compare::images::{self, KINDS};
use compare::paper::{Mode, map};
use compare::random::Random;
use pottagewing::Mark;

const PAIRS: u64 = 100_000;
/// Of so many images the last leads over the end of memory, and the last but one is long. The others are short.
const TURNS: u64 = 128;
/// Long ones have up to 70 bytes fewer than one of these, short ones up to so many.
const LONG: [usize; 3] = [1_000, 3_000, 8_000];
const SHORT: u64 = 40;
const NO_LIMIT: u32 = u32::MAX;
const UNTOUCHED: u8 = Mark::Untouched as u8;
const WAITING: u8 = Mark::Waiting as u8;
const TRACED: u8 = Mark::Traced as u8;
const PINNED: u8 = Mark::Pinned as u8;
/// The exception's bytes, and what else may stand in the place of each.
const FLASH: [u8; 3] = [0xB8, 0x0D, 0x21];
const OTHERS: [u8; 3] = [0xB9, 0x0C, 0x20];

/// What is the same for all lists of a pair.
struct Given<'a> {
    mode: Mode,
    image: &'a [u8],
    pins: &'a [u32],
}

/// What is left of a list, with the byte mask and the packed map over it.
struct Left {
    marks: Vec<u8>,
    mask: (Answer, Vec<u8>),
    words: (Answer, Vec<u64>),
}

/// What is said of two lists joined.
#[derive(PartialEq, Debug)]
struct Said {
    /// The positions with each mark, and with one that is none of these and not 0.
    traced: Vec<u32>,
    waiting: Vec<u32>,
    pinned: Vec<u32>,
    strange: Vec<u32>,
    /// The marks of the lists in the other order, of the first joined to itself, and of the first joined to an empty one.
    turned: Vec<u8>,
    doubled: Vec<u8>,
    alone: Vec<u8>,
    mask: (Answer, Vec<u8>),
    words: (Answer, Vec<u64>),
}

pub fn compare(tally: &mut Tally, random: &mut Random) {
    for turn in 0..share::times(PAIRS) {
        let image = image(random, turn);
        pair(tally, random, &image);
    }
}

fn image(random: &mut Random, turn: u64) -> Vec<u8> {
    let image = match TURNS - turn % TURNS {
        1 => rings::image(random).0,
        2 => {
            let length = random.pick(&LONG) - random.below(71) as usize;
            images::image(random.pick(&KINDS), length, random)
        }
        _ => {
            let length = random.below(SHORT + 1) as usize;
            images::image(random.pick(&KINDS), length, random)
        }
    };
    mended(random, image)
}

/// Each B8 0D 21 loses one of its bytes.
fn mended(random: &mut Random, mut image: Vec<u8>) -> Vec<u8> {
    for at in 2..image.len() {
        if image[at - 2..=at] == FLASH {
            let place = random.below(3) as usize;
            image[at - 2 + place] = OTHERS[place];
        }
    }
    assert!(!images::has_flash(&image), "all of them are mended");
    image
}

/// As of the other comparisons, and some more near the ends, which is anywhere in a short image.
fn entries(random: &mut Random, length: usize) -> Vec<u32> {
    let mut entries = images::entries(length, random);
    let more = random.pick(&[0, 0, 1, 3]);
    entries.extend((0..more).map(|_| rings::position(random, length)));
    entries
}

fn pair(tally: &mut Tally, random: &mut Random, image: &[u8]) {
    let mode = random.pick(&[Mode::Unwrapped, Mode::Wrapping]);
    let lists = [0, 1].map(|_| entries(random, image.len()));
    let mut given = Given {
        mode,
        image,
        pins: &[],
    };
    let pins = match random.below(2) {
        0 => vec![],
        _ => given.some_pins(random, &lists.concat()),
    };
    given.pins = &pins;
    let [first, second] = [0, 1].map(|at| given.left(random, &lists[at]));
    let joined = given.left(random, &lists.concat());
    let expected = given.by_parts(&first, &second, &joined);
    let ours = given.by_joined(random, &lists, &joined);
    given.count(tally, random, &lists, [&first, &second, &joined]);
    let judge = match mode {
        Mode::Unwrapped => Judge::Document,
        Mode::Wrapping => Judge::Wrapping,
    };
    let what = (Call::Joined, judge);
    tally.judge(what, None, (Answer::DONE, &expected), &ours, || {
        let image = shown(image);
        format!("{mode:?} joined lists {lists:?} of {image} pins {pins:?}")
    });
}

impl Given<'_> {
    /// Pins on what is noted without them, and elsewhere.
    fn some_pins(&self, random: &mut Random, entries: &[u32]) -> Vec<u32> {
        let marks = self.traced(random, entries);
        let noted = places(&marks, |mark| mark != UNTOUCHED);
        images::pins(self.image, entries, &noted, random)
    }

    /// The image's marks after a trace to the end, by a run that has no limit, or by sweeps. A run that is cut off is not
    /// at the end: it is swept.
    fn traced(&self, random: &mut Random, entries: &[u32]) -> Vec<u8> {
        let (mode, image, pins) = (self.mode, self.image, self.pins);
        let length = image.len() + random.below(5) as usize;
        let lent = Lent::filled(length, random, |mixed| mixed as u8);
        let mut marks = lent.clone();
        let mut ended = false;
        if random.below(2) == 0 {
            let (marks, mut order) = (marks.lend(), vec![0; image.len()]);
            let answer = ours::run(mode, image, marks, &mut order, entries, pins, NO_LIMIT);
            ended = answer.number != Answer::CUT_OFF;
        }
        if !ended {
            marks = lent;
            ours::sweep(mode, image, marks.lend(), entries, pins);
        }
        marks.part()[..image.len()].to_vec()
    }

    fn left(&self, random: &mut Random, entries: &[u32]) -> Left {
        let (image, marks) = (self.image, self.traced(random, entries));
        let needed = map::needed(image.len());
        let mask = Lent::filled(image.len(), random, |mixed| mixed as u8);
        let words = Lent::filled(needed, random, |mixed| mixed);
        Left {
            mask: seen(mask, |room| ours::mask(image, &marks, room)),
            words: seen(words, |room| ours::map_build(image, &marks, room)),
            marks,
        }
    }

    /// Worked out from what is left of each list; the other order is to leave what the one does.
    fn by_parts(&self, first: &Left, second: &Left, joined: &Left) -> Said {
        let pairs: Vec<[u8; 2]> = zipped(&first.marks, &second.marks, |a, b| [a, b]);
        let in_either = |mark: u8| places(&pairs, |pair| pair.contains(&mark));
        let mask = zipped(&first.mask.1, &second.mask.1, |a, b| {
            u8::from(a == 1 || b == 1)
        });
        let words = zipped(&first.words.1, &second.words.1, |a, b| a | b);
        let mut pinned = self.pins.to_vec();
        pinned.retain(|pin| (*pin as usize) < self.image.len());
        pinned.sort_unstable();
        pinned.dedup();
        Said {
            traced: in_either(TRACED),
            waiting: in_either(WAITING),
            pinned,
            strange: vec![],
            turned: joined.marks.clone(),
            doubled: first.marks.clone(),
            alone: first.marks.clone(),
            mask: (filled(mask.len()), mask),
            words: (filled(words.len()), words),
        }
    }

    /// What is left of the lists joined.
    fn by_joined(&self, random: &mut Random, lists: &[Vec<u32>; 2], joined: &Left) -> Said {
        let [first, second] = lists;
        let with = |wanted: u8| places(&joined.marks, |mark| mark == wanted);
        let is_strange = |mark| ![UNTOUCHED, WAITING, TRACED, PINNED].contains(&mark);
        let mut traced = |one: &[u32], other: &[u32]| self.traced(random, &[one, other].concat());
        Said {
            traced: with(TRACED),
            waiting: with(WAITING),
            pinned: with(PINNED),
            strange: places(&joined.marks, is_strange),
            turned: traced(second, first),
            doubled: traced(first, first),
            alone: traced(first, &[]),
            mask: joined.mask.clone(),
            words: joined.words.clone(),
        }
    }

    fn count(
        &self,
        tally: &mut Tally,
        random: &mut Random,
        lists: &[Vec<u32>; 2],
        left: [&Left; 3],
    ) {
        let [first, second, joined] = left.map(|left| &left.marks);
        let more = |one: &[u8], other: &[u8]| {
            zipped(one, other, |a, b| a == TRACED && b != TRACED).contains(&true)
        };
        let counts = &mut tally.joined;
        counts.pairs += 1;
        counts.pinned += u64::from(!self.pins.is_empty());
        counts.each += u64::from(more(first, second) && more(second, first));
        counts.waiting += u64::from(joined.contains(&WAITING));
        if self.mode == Mode::Wrapping {
            let mode = Mode::Unwrapped;
            let unwrapped = Given { mode, ..*self }.traced(random, &lists.concat());
            counts.wrapped += u64::from(unwrapped != *joined);
        }
    }
}

/// What a view answers and shows.
fn seen<T: Copy>(mut room: Lent<T>, view: impl FnOnce(&mut [T]) -> Answer) -> (Answer, Vec<T>) {
    let answer = view(room.lend());
    (answer, room.part().to_vec())
}

/// What a view answers that filled so much room.
fn filled(count: usize) -> Answer {
    Answer::new(Answer::DONE, &[count as i64])
}

fn zipped<T: Copy, U>(first: &[T], second: &[T], told: impl Fn(T, T) -> U) -> Vec<U> {
    let pairs = first.iter().zip(second);
    pairs.map(|(one, other)| told(*one, *other)).collect()
}

/// The positions of which a list has something wanted.
fn places<T: Copy>(list: &[T], wanted: impl Fn(T) -> bool) -> Vec<u32> {
    let listed = (0..).zip(list);
    let found = listed.filter(|(_, value)| wanted(**value));
    found.map(|(at, _)| at).collect()
}
