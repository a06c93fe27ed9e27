//! The listing. Where the original traced an image to its end, it is held byte for byte against what the
//! original lists, put into document 01's words. On marks of any content document 01 judges alone, and in
//! wrapping mode document 02.

use crate::back;
use crate::lent::Lent;
use crate::ours;
use crate::steps::shown;
use crate::tally::{Call, Judge, Tally};
use crate::views::{self, Outcome};
use compare::answer::Answer;
use compare::original::listed;
use compare::paper::listing::{self as paper, Arrivals};
use compare::paper::{Mode, views as plain};
use compare::random::Random;

/// What a listing is asked for.
struct Given<'a> {
    mode: Mode,
    image: &'a [u8],
    marks: &'a [u8],
    arrivals: Arrivals,
}

/// Of a whole trace: without arrivals and with them. The original is asked once, with them: without, it
/// lists the same but for these.
pub fn of_trace(
    tally: &mut Tally,
    random: &mut Random,
    image: &[u8],
    marks: &[u8],
    entries: &[u32],
) {
    let told = listed::text(entries, image, true);
    let others = told
        .split_inclusive('\n')
        .filter(|line| !line.starts_with('A'));
    let both = [
        (Arrivals::Declined, others.collect()),
        (Arrivals::Chosen, told),
    ];
    for (arrivals, told) in both {
        let given = Given {
            mode: Mode::Unwrapped,
            image,
            marks,
            arrivals,
        };
        given.listing(tally, random, Some(told));
    }
}

/// In wrapping mode, of a whole trace: without arrivals and with them.
pub fn wrapping(tally: &mut Tally, random: &mut Random, image: &[u8], marks: &[u8]) {
    for arrivals in [Arrivals::Declined, Arrivals::Chosen] {
        let given = Given {
            mode: Mode::Wrapping,
            image,
            marks,
            arrivals,
        };
        given.listing(tally, random, None);
    }
}

pub fn of_marks(mode: Mode, tally: &mut Tally, random: &mut Random, image: &[u8], marks: &[u8]) {
    let given = Given {
        mode,
        image,
        marks,
        arrivals: random.pick(&[Arrivals::Declined, Arrivals::Chosen]),
    };
    given.listing(tally, random, None);
}

impl Given<'_> {
    fn listing(&self, tally: &mut Tally, random: &mut Random, told: Option<String>) {
        let needed = told.as_ref().map_or_else(|| self.needed(), String::len);
        let room = views::room(random, needed);
        let room = Lent::filled(room, random, |mixed| mixed as u8);
        let expected = views::outcome(&room, |room| self.paper(room));
        let choice = match self.arrivals {
            Arrivals::Chosen => random.pick(&[1, 2, 256, u32::MAX]),
            Arrivals::Declined => 0,
        };
        let ours = self.ours(self.mode, choice, &room);
        let told = told.map(|text| views::shows(&room, text.as_bytes()));
        let judge = match &told {
            Some(told) if expected.0.done() => {
                if *told != expected {
                    tally.table_differs(|| self.differ(told, &expected));
                }
                count(tally, &expected);
                Judge::Original
            }
            _ => match self.mode {
                Mode::Unwrapped => Judge::Document,
                Mode::Wrapping => self.against_unwrapped(tally, choice, &room, &ours),
            },
        };
        let number = expected.0.number;
        let what = (Call::Listing, judge);
        let input = || self.differ(&expected, &ours);
        tally.judge(what, None, (number, &expected), &ours, input);
        if expected.0.done() {
            let text = &expected.1.part()[..expected.0.values[0] as usize];
            back::of_listing(self.mode, tally, random, self.image, self.marks, text);
        }
    }

    /// Where nothing that is traced leaves memory both modes list the same, and where the marks are refused.
    fn against_unwrapped(
        &self,
        tally: &mut Tally,
        choice: u32,
        room: &Lent<u8>,
        ours: &Outcome<u8>,
    ) -> Judge {
        let unwrapped = self.ours(Mode::Unwrapped, choice, room);
        let number = unwrapped.0.number;
        let listed = unwrapped.0.done() || number == Answer::NO_ROOM;
        if !listed || plain::stays(self.image, self.marks) {
            let what = (Call::ModesAlike, Judge::Wrapping);
            let input = || self.differ(&unwrapped, ours);
            tally.judge(what, None, (number, &unwrapped), ours, input);
        }
        tally.wrapping.listings += u64::from(unwrapped != *ours);
        Judge::Wrapping
    }

    fn ours(&self, mode: Mode, choice: u32, room: &Lent<u8>) -> Outcome<u8> {
        let (image, marks) = (self.image, self.marks);
        views::outcome(room, |room| ours::listing(mode, image, marks, choice, room))
    }

    fn paper(&self, room: &mut [u8]) -> Answer {
        paper::shown(self.mode, self.image, self.marks, self.arrivals, room)
    }

    /// The bytes of the listing, 0 if there is none.
    fn needed(&self) -> usize {
        match self.paper(&mut []) {
            answer if answer.number == Answer::NO_ROOM => answer.values[0] as usize,
            _ => 0,
        }
    }

    /// What is listed, and where the second outcome leaves the first.
    fn differ(&self, one: &Outcome<u8>, other: &Outcome<u8>) -> String {
        let [one, other] = [one, other].map(|outcome| outcome.1.part());
        let same = one.iter().zip(other).take_while(|(a, b)| a == b).count();
        let from = one[..same].iter().rposition(|byte| *byte == b'\n');
        let end = |part: &[u8]| {
            part[from.map_or(0, |at| at + 1)..]
                .iter()
                .take(80)
                .copied()
                .collect()
        };
        let [one, other]: [Vec<u8>; 2] = [one, other].map(end);
        let (one, other) = (
            String::from_utf8_lossy(&one),
            String::from_utf8_lossy(&other),
        );
        let marks = &self.marks[..self.marks.len().min(48)];
        let arrivals = match self.arrivals {
            Arrivals::Chosen => "with arrivals",
            Arrivals::Declined => "without arrivals",
        };
        let (mode, image) = (self.mode, shown(self.image));
        format!("{mode:?} listing {arrivals} of {image} marks {marks:?}: {one:?}, not {other:?}")
    }
}

/// Counts the lines that a listing has. The bytes of an instruction are its third field.
fn count(tally: &mut Tally, listed: &Outcome<u8>) {
    let text = &listed.1.part()[..listed.0.values[0] as usize];
    let digit = |byte: u8| (byte as char).to_digit(16).expect("a digit") as u8;
    for line in text.split_inclusive(|byte| *byte == b'\n') {
        let first = match line {
            [b'I', _, _, _, _, _, _, high, low, ..] => Some(digit(*high) << 4 | digit(*low)),
            _ => None,
        };
        tally.line(line[0], first);
    }
}
