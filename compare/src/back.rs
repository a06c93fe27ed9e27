//! Listings read back. The original reads none: a plain reader by document 02 judges. What was listed must come
//! back, read in the mode that it was listed in, which does not depend on that reader.

use crate::changed;
use crate::lent::Lent;
use crate::lines;
use crate::ours;
use crate::share;
use crate::tally::{Call, Judge, Tally};
use crate::views;
use compare::answer::Answer;
use compare::game::{self, VECTORS};
use compare::paper::input::Input;
use compare::paper::listing::{self, Arrivals};
use compare::paper::{Mode, back as paper, tracer};
use compare::random::Random;
use pottagewing::Mark;

/// Numbers of their own, so that the other comparisons are the same with this one and without.
const OWN: u64 = 0x5EED_BACC;
/// Of the listings of images up to a length, one of so many is read back, with so many changes.
const SOME: [(usize, u64, u64); 4] = [(8, 64, 3), (300, 8, 3), (4_100, 1, 4), (70_000, 4, 1)];
/// In wrapping mode, of which there are fewer, at least one of so many.
const WRAPPING: u64 = 4;
/// The lengths of images that look like games, and how often each is changed.
const GAMES: [(usize, u64); 3] = [(1_024, 4_000), (4_096, 1_000), (16_384, 100)];
/// So much of a text is shown.
const SHOWN: usize = 240;

/// Of an image and its marks: the listing as it is, changed, and with other lengths.
pub fn of_listing(
    mode: Mode,
    tally: &mut Tally,
    random: &Random,
    image: &[u8],
    marks: &[u8],
    text: &[u8],
) {
    let mut random = Random(random.0 ^ OWN);
    let of_length = SOME.iter().find(|(most, ..)| image.len() <= *most);
    let (_, of, changes) = *of_length.expect("an image that was listed");
    let of = match mode {
        Mode::Unwrapped => of,
        Mode::Wrapping => of.min(WRAPPING),
    };
    if random.below(of) > 0 {
        return;
    }
    let listed = Listed {
        mode,
        image,
        marks,
        text,
    };
    listed.all(tally, &mut random, changes);
    if mode == Mode::Wrapping {
        listed.unwrapped(tally, &mut random);
    }
}

/// The listings of images that look like games.
pub fn compare(tally: &mut Tally, random: &mut Random) {
    for (length, changes) in GAMES {
        let image = game::image(length);
        let entries = VECTORS.map(|at| at as u32).to_vec();
        let input = Input { entries, image };
        let marks = listing::marks(&input).expect("a game is not cut off");
        for arrivals in [Arrivals::Chosen, Arrivals::Declined] {
            let mode = Mode::Unwrapped;
            let text = listing::listing(mode, &input.image, &marks, arrivals);
            let listed = Listed {
                mode,
                image: &input.image,
                marks: &marks,
                text: text.as_bytes(),
            };
            listed.all(tally, random, changes);
        }
    }
}

/// An image with its marks, and the listing of these.
struct Listed<'a> {
    mode: Mode,
    image: &'a [u8],
    marks: &'a [u8],
    text: &'a [u8],
}

impl Listed<'_> {
    fn all(&self, tally: &mut Tally, random: &mut Random, changes: u64) {
        self.whole(tally, random);
        let own = self.image.len();
        for _ in 0..share::times(changes) {
            let changed = self.changed(random);
            Given::new(random, self.mode, &changed, own).changed(tally);
            lines::of_text(self.mode, tally, random, &changed, own);
        }
        let length = other(random, own);
        Given::new(random, self.mode, self.text, length).judged(tally);
        lines::of_text(self.mode, tally, random, self.text, length);
        let length = other(random, own);
        let changed = self.changed(random);
        Given::new(random, self.mode, &changed, length).judged(tally);
    }

    fn changed(&self, random: &mut Random) -> Vec<u8> {
        changed::text(self.mode, random, self.image, self.text)
    }

    /// The image comes back, and the marks but for 1 and 4, which become 0, and 3, which becomes 2.
    fn whole(&self, tally: &mut Tally, random: &mut Random) {
        let Listed { image, text, .. } = self;
        let restored = self.marks[..image.len()]
            .iter()
            .map(|mark| match Mark::of(*mark) {
                Some(Mark::Traced | Mark::Flash) => Mark::Traced as u8,
                _ => Mark::Untouched as u8,
            });
        let restored: Vec<u8> = restored.collect();
        let lines = text.iter().filter(|byte| **byte == b'\n').count();
        let mut enough = || image.len() + random.pick(&[0, 0, 1, 3]);
        let lengths = [enough(), enough()];
        let given = Given::in_rooms(random, self.mode, text, image.len(), lengths);
        let expected = Outcome {
            answer: Answer::new(Answer::DONE, &[lines as i64]),
            image: given.image.clone().with(image),
            marks: given.marks.clone().with(&restored),
        };
        let paper = given.read(paper::read);
        if paper != expected {
            tally
                .reader_differs(|| format!("{}\n  {expected:?}\n  {paper:?}", given.shown(&paper)));
        }
        tally.backs.whole += u64::from(self.mode == Mode::Unwrapped);
        given.judge(tally, &expected);
        lines::of_listing(self.mode, tally, image, &restored, text);
    }

    /// What was listed in wrapping mode, read back unwrapped: malformed where a target was wrapped. Counted as wrapping.
    fn unwrapped(&self, tally: &mut Tally, random: &mut Random) {
        let mut given = Given::new(random, Mode::Unwrapped, self.text, self.image.len());
        given.judge = Judge::Wrapping;
        let answer = given.judged(tally);
        tally.wrapping.malformed += u64::from(answer.number == Answer::MALFORMED_LINE);
    }
}

/// Another length than the image's own: mostly near it, at times at a limit or past it.
fn other(random: &mut Random, own: usize) -> usize {
    match random.below(16) {
        0..4 => own.saturating_sub(1),
        4..8 => own + 1,
        8 | 9 => 0,
        10..13 => random.below(own as u64 + 20) as usize,
        13 => random.below(tracer::LONGEST as u64) as usize,
        14 => tracer::LONGEST,
        _ => tracer::LONGEST + random.pick(&[1, 1, 2, 65_536, u32::MAX as usize - tracer::LONGEST]),
    }
}

/// What is lent to be read back.
struct Given<'a> {
    mode: Mode,
    judge: Judge,
    text: &'a [u8],
    length: usize,
    image: Lent<u8>,
    marks: Lent<u8>,
}

/// What reading back answers and leaves.
#[derive(PartialEq, Debug)]
struct Outcome {
    answer: Answer,
    image: Lent<u8>,
    marks: Lent<u8>,
}

/// A reader, ours or document 02's.
type Read = fn(Mode, &[u8], usize, &mut [u8], &mut [u8]) -> Answer;

impl Given<'_> {
    /// Where the length is too long, rooms of any length.
    fn new<'a>(random: &mut Random, mode: Mode, text: &'a [u8], length: usize) -> Given<'a> {
        let mut room = || match length {
            0..=tracer::LONGEST => views::room(random, length),
            _ => random.pick(&[0, 8, tracer::LONGEST, tracer::LONGEST + 2]),
        };
        let lengths = [room(), room()];
        Given::in_rooms(random, mode, text, length, lengths)
    }

    fn in_rooms<'a>(
        random: &mut Random,
        mode: Mode,
        text: &'a [u8],
        length: usize,
        lengths: [usize; 2],
    ) -> Given<'a> {
        let [image, marks] = lengths.map(|room| Lent::filled(room, random, |mixed| mixed as u8));
        let judge = match mode {
            Mode::Unwrapped => Judge::Document,
            Mode::Wrapping => Judge::Wrapping,
        };
        Given {
            mode,
            judge,
            text,
            length,
            image,
            marks,
        }
    }

    /// Reads into a copy of the rooms.
    fn read(&self, read: Read) -> Outcome {
        let (mut image, mut marks) = (self.image.clone(), self.marks.clone());
        let (mode, text, length) = (self.mode, self.text, self.length);
        let answer = read(mode, text, length, image.lend(), marks.lend());
        Outcome {
            answer,
            image,
            marks,
        }
    }

    /// A changed text: counted by what is expected of it.
    fn changed(&self, tally: &mut Tally) {
        let backs = match self.judged(tally).number {
            Answer::DONE => &mut tally.backs.taken,
            _ => &mut tally.backs.refused,
        };
        *backs += u64::from(self.mode == Mode::Unwrapped);
    }

    /// By the plain reader, whose answer is given.
    fn judged(&self, tally: &mut Tally) -> Answer {
        let expected = self.read(paper::read);
        self.judge(tally, &expected);
        expected.answer
    }

    fn judge(&self, tally: &mut Tally, expected: &Outcome) {
        let ours: Read = |mode, text, length, image, marks| {
            ours::read_back(mode, text, length as u32, image, marks)
        };
        let ours = self.read(ours);
        let number = expected.answer.number;
        let what = (Call::ReadBack, self.judge);
        let input = || self.shown(&ours);
        tally.judge(what, None, (number, expected), &ours, input);
    }

    /// The text around the line that an outcome names, and what is lent.
    fn shown(&self, outcome: &Outcome) -> String {
        let Given {
            mode, text, length, ..
        } = self;
        let [image, marks] = [&self.image, &self.marks].map(|room| room.part().len());
        let lines = text.split_inclusive(|byte| *byte == b'\n');
        let before = match outcome.answer.number {
            Answer::MALFORMED_LINE | Answer::LINE_PAST_END => outcome.answer.values[0] as usize,
            _ => 0,
        };
        let skipped = lines.take(before).map(<[u8]>::len).sum::<usize>();
        let from = skipped.saturating_sub(SHOWN / 2);
        let end = text.len().min(from + SHOWN);
        let part = String::from_utf8_lossy(&text[from..end]);
        let count = text.len();
        format!(
            "{mode:?} read back of {count} bytes, from {from} on {part:?}, length {length}, rooms {image} and {marks}"
        )
    }
}
