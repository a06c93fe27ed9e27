//! The listing, the listing program, and a listing read back.

use super::same;
use crate::cases::Case;
use crate::ours;
use crate::plain::back::{Reader, Refused};
use crate::plain::input::Input;
use crate::plain::listing::Lister;
use crate::plain::trace::{TRACED, is_traced};
use crate::plain::{list, unlist};
use crate::rows::{DECLINED, LONGEST_LISTING, MODE};
use compare::answer::Answer;
use compare::original::listed;
use compare::paper::{Mode, listing as paper};
use pottagewing::{MOST_BYTES, MOST_ENTRIES, PRINTED_ROOM, UNLISTED_ROOM};

/// What a byte of a listing, or of an input, is changed to.
const CHANGES: &[u8; 16] = b"0123789ADF0\tI\n?f";

pub fn listing(case: &Case, arrivals: bool) -> Result<(), &'static str> {
    let mut room = vec![9; LONGEST_LISTING];
    let choice = u32::from(arrivals);
    let answer = ours::listing(MODE, &case.image, &case.marks, choice, &mut room);
    let ours = &room[..answer.values[0] as usize];
    let mut plain = Lister::default();
    plain.list(&case.image, &case.marks, arrivals);
    let theirs = listed::text(&case.entries, &case.image, arrivals);
    same(plain.text == theirs.as_bytes(), "the plain listing")?;
    same(ours == theirs.as_bytes(), "listing")
}

/// By the program, of an image that is not too long for it: the listing, and of a changed input what the plain program prints.
pub fn listing_text(case: &Case) -> Result<(), &'static str> {
    let mut program = list::Program::default();
    let mut room = vec![9; PRINTED_ROOM];
    for (turn, text) in inputs(case).iter().enumerate() {
        let printed = program.list(text);
        let answer = ours::list_text(text, &mut room);
        let told = Answer::new(Answer::DONE, &[printed.len() as i64]);
        same(answer == told && room.starts_with(printed), "list text")?;
        same(turn > 0 || printed == case.listing, "the plain program")?;
    }
    Ok(())
}

/// Its input taken apart.
pub fn parsing(case: &Case) -> Result<(), &'static str> {
    let mut input = Input::default();
    for text in inputs(case) {
        let (mut entries, mut image) = (vec![9; MOST_ENTRIES], vec![9; MOST_BYTES]);
        let answer = ours::parse(&text, &mut entries, &mut image);
        let told = match input.read(&text) {
            Ok(()) => {
                let counts = [input.entries.len() as i64, input.image.len() as i64];
                Answer::new(Answer::DONE, &counts)
            }
            Err(line) => Answer::new(Answer::MALFORMED_INPUT, &[line as i64]),
        };
        same(answer == told, "parse")?;
        if answer.done() {
            let is_so = entries.starts_with(&input.entries) && image.starts_with(&input.image);
            same(is_so, "parse")?;
        }
    }
    Ok(())
}

/// The input of an image that is not too long, and changed ones.
fn inputs(case: &Case) -> Vec<Vec<u8>> {
    let mut inputs = vec![];
    if !case.input.is_empty() {
        inputs.push(case.input.clone());
        let changed = CHANGES.iter().enumerate();
        inputs.extend(changed.map(|(turn, byte)| changed_at(&case.input, turn, *byte)));
    }
    inputs
}

/// With another byte at a place.
fn changed_at(text: &[u8], turn: usize, byte: u8) -> Vec<u8> {
    let mut changed = text.to_vec();
    changed[place(text, turn)] = byte;
    changed
}

fn place(text: &[u8], turn: usize) -> usize {
    (turn + 1) * 0x9E37_79B1 % text.len()
}

/// The listing gives the image and the traced positions back; changed, both readers say the same of it.
pub fn reading_back(case: &Case) -> Result<(), &'static str> {
    let lines = case.listing.iter().filter(|byte| **byte == b'\n').count();
    let traced = |mark: &u8| if is_traced(*mark) { TRACED } else { 0 };
    let marks: Vec<u8> = case.marks.iter().map(traced).collect();
    let answer = Answer::new(Answer::DONE, &[lines as i64]);
    let expected = (answer, case.image.clone(), marks);
    let length = case.image.len();
    same(ours_back(&case.listing, length) == expected, "read back")?;
    same(
        plain_back(&case.listing, length) == expected,
        "the plain read back",
    )?;
    unlisting(&case.listing, length)?;
    for (turn, byte) in CHANGES.iter().enumerate() {
        let changed = changed_at(&case.listing, turn, *byte);
        let at = place(&case.listing, turn);
        for text in [changed, twice(&case.listing, at)] {
            let ours = ours_back(&text, length);
            same(plain_back(&text, length) == ours, "a changed one read back")?;
            unlisting(&text, length)?;
        }
    }
    Ok(())
}

/// By the program that unlists.
fn unlisting(text: &[u8], length: usize) -> Result<(), &'static str> {
    let mut room = vec![9; UNLISTED_ROOM];
    let mut program = unlist::Program::default();
    let printed = program.unlist(text, length);
    let answer = ours::unlist_text(text, length as u32, &mut room);
    let told = Answer::new(Answer::DONE, &[printed.len() as i64]);
    same(answer == told && room.starts_with(printed), "unlist text")
}

/// With the line around a place twice.
fn twice(text: &[u8], at: usize) -> Vec<u8> {
    let is_end = |byte: &u8| *byte == b'\n';
    let start = text[..at].iter().rposition(is_end).map_or(0, |end| end + 1);
    let end = text[at..].iter().position(is_end).map_or(0, |end| end + 1);
    [&text[..at + end], &text[start..]].concat()
}

/// An answer, an image and marks.
type Back = (Answer, Vec<u8>, Vec<u8>);

fn ours_back(text: &[u8], length: usize) -> Back {
    let (mut image, mut marks) = (vec![9; length], vec![9; length]);
    let answer = ours::read_back(MODE, text, length as u32, &mut image, &mut marks);
    (answer, image, marks)
}

fn plain_back(text: &[u8], length: usize) -> Back {
    let (mut image, mut marks) = (vec![9; length], vec![9; length]);
    let read = Reader::default().read(text, &mut image, &mut marks);
    let (number, value) = match read {
        Ok(lines) => (Answer::DONE, lines),
        Err(Refused::Malformed(line)) => (Answer::MALFORMED_LINE, line),
        Err(Refused::PastEnd(line)) => (Answer::LINE_PAST_END, line),
    };
    (Answer::new(number, &[value as i64]), image, marks)
}

/// In wrapping mode, of the same marks: by the plain side of the comparison.
pub fn wrapping(case: &Case) -> Result<(), &'static str> {
    let (mode, image) = (Mode::Wrapping, &case.image);
    let mut room = vec![9; LONGEST_LISTING];
    let answer = ours::listing(mode, image, &case.marks, DECLINED, &mut room);
    let plain = paper::listing(mode, image, &case.marks, paper::Arrivals::Declined);
    let ours = &room[..answer.values[0] as usize];
    same(ours == plain.as_bytes(), "listing, wrapping")
}
