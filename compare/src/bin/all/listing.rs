//! The listings of the marks that a whole run left, and these read back.

use crate::ours;
use crate::run::Ran;
use crate::sums::{Call, Sums};
use compare::answer::Answer;
use compare::images::TELLING;
use compare::original::listed;
use compare::paper::Mode;
use compare::paper::listing::{self as paper, Arrivals};

/// The original's mode.
const MODE: Mode = Mode::Unwrapped;
/// More than the longest listing of an image of up to three bytes.
const ROOM: usize = 256;
/// What stands in lent memory before.
const OLD: u8 = b'~';
/// The image and the marks that are read back, and one place more.
const BACK: usize = 4;

/// A listing's answer and the text, which the rest of the room must not follow.
#[derive(PartialEq, Debug)]
struct Outcome(Answer, String);

pub fn all(sums: &mut Sums, image: &[u8], entries: &[u32], ran: &Ran) {
    let plain = paper::listing(MODE, image, &ran.marks, Arrivals::Chosen);
    let told = (ran.graph.is_some() && is_asked(image)).then(|| listed::text(entries, image, true));
    let told_without = told.as_deref().map(without_arrivals);
    let declined = without_arrivals(&plain);
    one(sums, image, &ran.marks, 0, (&declined, told_without));
    one(sums, image, &ran.marks, 1, (&plain, told));
    read_back(sums, image, &ran.marks, &declined);
    if plain != declined {
        read_back(sums, image, &ran.marks, &plain);
    }
}

/// Whether the original is asked for its listing.
fn is_asked(image: &[u8]) -> bool {
    let others = image.iter().filter(|byte| !TELLING.contains(byte));
    image.len() < 3 || others.count() <= 1
}

/// A listing without arrivals has the same lines but for these.
fn without_arrivals(text: &str) -> String {
    let lines = text.split_inclusive('\n');
    lines.filter(|line| !line.starts_with('A')).collect()
}

fn one(
    sums: &mut Sums,
    image: &[u8],
    marks: &[u8],
    arrivals: u32,
    (plain, told): (&str, Option<String>),
) {
    let mut room = [OLD; ROOM];
    let answer = ours::listing(MODE, image, marks, arrivals, &mut room);
    let ours = Outcome(answer, text_of(&room));
    let outcome = |text: &str| {
        let answer = Answer::new(Answer::DONE, &[text.len() as i64]);
        Outcome(answer, text.to_string())
    };
    let told = told.map(|text| outcome(&text));
    let plain = outcome(plain);
    sums.judge(Call::Listing, &plain, told.as_ref(), &ours, || {
        format!("{image:02X?} marks {marks:?} arrivals {arrivals}")
    });
}

/// What was written: a listing does not have the byte that stood there before at its end.
fn text_of(room: &[u8]) -> String {
    let end = room.iter().rposition(|byte| *byte != OLD);
    String::from_utf8_lossy(&room[..end.map_or(0, |end| end + 1)]).into_owned()
}

/// The image comes back, and the marks but for 1, which becomes 0, and 3, which becomes 2.
fn read_back(sums: &mut Sums, image: &[u8], marks: &[u8], text: &str) {
    let (mut plain_image, mut plain_marks) = ([OLD; BACK], [OLD; BACK]);
    plain_image[..image.len()].copy_from_slice(image);
    for (at, mark) in marks.iter().enumerate() {
        plain_marks[at] = if *mark >= 2 { 2 } else { 0 };
    }
    let lines = text.lines().count() as i64;
    let plain = (
        Answer::new(Answer::DONE, &[lines]),
        plain_image,
        plain_marks,
    );
    let (mut back, mut back_marks) = ([OLD; BACK], [OLD; BACK]);
    let length = image.len() as u32;
    let text_bytes = text.as_bytes();
    let answer = ours::read_back(MODE, text_bytes, length, &mut back, &mut back_marks);
    let ours = (answer, back, back_marks);
    sums.judge(Call::ReadBack, &plain, None, &ours, || {
        format!("{image:02X?} marks {marks:?}: {text:?}")
    });
}
