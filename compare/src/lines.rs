//! One line at a time: an `I` line from its bytes, and a listing read from place to place; and what `unlist` prints of one. The original has
//! none of these calls: the plain side judges. Each `I` line of a listing must be the one of its bytes, and a listing that is read line by
//! line must have the lines and the marks with which it comes back.

use crate::lent::Lent;
use crate::ours;
use crate::share;
use crate::tally::{Call, Judge, Tally};
use crate::views::{self, Outcome};
use compare::answer::Answer;
use compare::paper::{Mode, back, listing};
use compare::random::Random;
use pottagewing::{CODE_LINE_MOST, IMAGE_LIMIT, Mark, PLACE_START};

/// Numbers of their own, so that the other comparisons are the same with this one and without.
const OWN: u64 = 0x5EED_11E5;
/// Instructions by chance.
const CALLS: u64 = 1_000_000;
/// Places by chance in each text.
const PLACES: u64 = 4;
/// A longer text is read from its first line on, and not to its end.
const MOST_LINES: usize = 20_000;
/// So much of a text is shown.
const SHOWN: usize = 240;

/// An `I` line of any bytes, in either mode.
pub fn compare(tally: &mut Tally, random: &mut Random) {
    for _ in 0..share::times(CALLS) {
        let mode = random.pick(&[Mode::Unwrapped, Mode::Wrapping]);
        let length = random.pick(&[0, 1, 2, 2, 3, 3, 3, 3, 4, 40]);
        let bytes: Vec<u8> = (0..length).map(|_| random.any() as u8).collect();
        let position = random.base();
        let mut all = [0; CODE_LINE_MOST];
        let needed = listing::code_line(mode, position, &bytes, &mut all).values[0];
        let room = views::room(random, needed.clamp(0, 99) as usize);
        let room = Lent::filled(room, random, |mixed| mixed as u8);
        let expected = views::outcome(&room, |room| {
            listing::code_line(mode, position, &bytes, room)
        });
        code_line(tally, mode, position, &bytes, &room, &expected);
    }
}

/// An image and what its listing gives back as marks: each `I` line by its bytes alone, and the listing from line to line.
pub fn of_listing(mode: Mode, tally: &mut Tally, image: &[u8], marks: &[u8], text: &[u8]) {
    let mut random = Random(text.len() as u64 ^ OWN);
    let lines = text.split_inclusive(|byte| *byte == b'\n');
    let count = lines.clone().count();
    let traced = (0..image.len()).filter(|at| marks[*at] == Mark::Traced as u8);
    for (line, at) in lines.filter(|line| line[0] == b'I').zip(traced) {
        let room = Lent::filled(line.len(), &mut random, |mixed| mixed as u8);
        let expected = views::shows(&room, line);
        code_line(tally, mode, at as u32, &image[at..], &room, &expected);
    }
    if count <= MOST_LINES {
        let mut read = vec![Mark::Untouched as u8; image.len()];
        let mut lines = 0;
        walk(mode, tally, text, |letter, at| {
            lines += 1;
            if letter == i64::from(b'I') {
                read[at as usize] = Mark::Traced as u8;
            }
        });
        let what = (Call::ReadLines, judge(mode));
        let expected = (count, marks.to_vec());
        tally.judge(what, None, (0, &expected), &(lines, read), || {
            shown(mode, text)
        });
    }
}

/// Any text, and a length that an image is to have: from its first line on, at places by chance, and as `unlist` has it.
pub fn of_text(mode: Mode, tally: &mut Tally, random: &Random, text: &[u8], length: usize) {
    let mut random = Random(random.0 ^ OWN);
    walk(mode, tally, text, |_, _| {});
    for _ in 0..PLACES {
        let place = place(&mut random, text);
        line(mode, tally, text, (place, place));
    }
    unlist(tally, &mut random, text, length);
}

fn judge(mode: Mode) -> Judge {
    match mode {
        Mode::Unwrapped => Judge::Document,
        Mode::Wrapping => Judge::Wrapping,
    }
}

fn code_line(
    tally: &mut Tally,
    mode: Mode,
    position: u32,
    bytes: &[u8],
    room: &Lent<u8>,
    expected: &Outcome<u8>,
) {
    let ours = views::outcome(room, |room| ours::code_line(mode, position, bytes, room));
    let first = bytes.first().copied();
    let bytes = &bytes[..bytes.len().min(4)];
    let number = expected.0.number;
    let what = (Call::CodeLine, judge(mode));
    tally.judge(what, first, (number, expected), &ours, || {
        format!("{mode:?} code line of {bytes:02X?} at {position}")
    });
}

/// Reads from the first line on, up to the end, a bad line or what differs; the letter and the position of each line are told.
fn walk(mode: Mode, tally: &mut Tally, text: &[u8], mut tell: impl FnMut(i64, i64)) {
    let mut places = (PLACE_START, PLACE_START);
    for _ in 0..=MOST_LINES {
        let (letter, at, next) = match line(mode, tally, text, places) {
            Some(read) => read,
            None => return,
        };
        tell(letter, at);
        places = next;
    }
}

/// Both places of a line that is read, one for ours and one for the plain reader.
type Places = ([u64; 4], [u64; 4]);

/// One line: where both read the same, its letter and its position, and the places after it.
fn line(mode: Mode, tally: &mut Tally, text: &[u8], places: Places) -> Option<(i64, i64, Places)> {
    let (mut place, mut plain) = places;
    let expected = back::read_line(mode, text, &mut plain);
    let ours = ours::read_line(mode, text, &mut place);
    let what = (Call::ReadLine, judge(mode));
    let (expected, ours) = ((expected, plain), (ours, place));
    let number = expected.0.number;
    tally.judge(what, None, (number, &expected), &ours, || {
        format!("at {places:?}, {}", shown(mode, text))
    });
    let [letter, at, ..] = expected.0.values;
    let is_read = number == Answer::DONE && letter != 0 && expected == ours;
    is_read.then_some((letter, at, (place, plain)))
}

/// Mostly where a line begins, after some other line; at times anywhere, and numbers of any size.
fn place(random: &mut Random, text: &[u8]) -> [u64; 4] {
    let any = random.below(text.len() as u64 + 3) as usize;
    let before = text.get(..any).unwrap_or(text);
    let begins = before.iter().rposition(|byte| *byte == b'\n');
    let at = match random.below(8) {
        0 => any as u64,
        1 => random.any() >> random.below(64),
        _ => begins.map_or(0, |end| end as u64 + 1),
    };
    let last = random.below(IMAGE_LIMIT as u64) >> random.below(16);
    let letter = u64::from(random.pick(b"LOAIDLOAID\0P"));
    let high = |random: &mut Random| match random.below(4) {
        0 => random.any(),
        _ => 0,
    };
    [
        at,
        random.any() >> random.below(64),
        last | high(random) << 32,
        letter | high(random) << 8,
    ]
}

/// Unwrapped, whatever the mode of the listing.
fn unlist(tally: &mut Tally, random: &mut Random, text: &[u8], length: usize) {
    let printed = back::printed(text, length);
    let room = views::room(random, printed.len());
    let room = Lent::filled(room, random, |mixed| mixed as u8);
    let expected = match room.part().len() < printed.len() {
        true => {
            let needed = [printed.len() as i64];
            Outcome(Answer::new(Answer::NO_ROOM, &needed), room.clone())
        }
        false => views::shows(&room, printed.as_bytes()),
    };
    let ours = views::outcome(&room, |room| ours::unlist_text(text, length as u32, room));
    let number = expected.0.number;
    let what = (Call::UnlistText, Judge::Document);
    tally.judge(what, None, (number, &expected), &ours, || {
        format!("unlist {length}, {}", shown(Mode::Unwrapped, text))
    });
}

fn shown(mode: Mode, text: &[u8]) -> String {
    let (count, beginning) = (text.len(), &text[..text.len().min(SHOWN)]);
    let beginning = String::from_utf8_lossy(beginning);
    format!("{mode:?} listing of {count} bytes {beginning:?}")
}
