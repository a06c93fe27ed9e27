//! A listing read back by document 02, written out plainly: the image and the marks, or the first bad line.

use super::input::{self, lines};
use super::{Mode, flow, listing, tracer};
use crate::answer::Answer;
use pottagewing::Mark;

/// The most bytes on a `D` line.
const MOST_BYTES: usize = pottagewing::RUN_LENGTH;
/// An instruction's mark.
const TRACED: u8 = Mark::Traced as u8;

/// Fills the rooms up to the length, or leaves them and says why not.
pub fn read(mode: Mode, text: &[u8], length: usize, image: &mut [u8], marks: &mut [u8]) -> Answer {
    let answer = |number, value: usize| Answer::new(number, &[value as i64]);
    if length > tracer::LONGEST {
        return answer(Answer::LONG_IMAGE, length);
    }
    if marks.len() < length {
        return answer(Answer::SHORT_MARKS, marks.len());
    }
    if image.len() < length {
        return answer(Answer::NO_ROOM, length);
    }
    let mut sheet = Sheet::new(mode, length);
    let lines = lines(text);
    for (index, line) in lines.iter().enumerate() {
        if let Err(number) = sheet.line(line) {
            return answer(number, index + 1);
        }
    }
    for at in 0..length {
        image[at] = sheet.listed[at].unwrap_or(0);
        marks[at] = sheet.marks[at];
    }
    answer(Answer::DONE, lines.len())
}

/// What `unlist` prints of a listing of an image of so many bytes: the image in lines of 32, or the line of a refusal.
pub fn printed(text: &[u8], length: usize) -> String {
    let room = length.min(tracer::LONGEST);
    let (mut image, mut marks) = (vec![0; room], vec![0; room]);
    let answer = read(Mode::Unwrapped, text, length, &mut image, &mut marks);
    match answer.number {
        Answer::DONE => image
            .chunks(input::MOST_IN_LINE)
            .map(|line| listing::hex(line) + "\n")
            .collect(),
        number => format!("R\t{number}\t{}\n", answer.values[0]),
    }
}

/// The line at a place, which goes on to the next: where it begins, its number, the position and the letter of the line before. Of
/// each number as many bits count as it has.
pub fn read_line(mode: Mode, text: &[u8], place: &mut [u64; 4]) -> Answer {
    let [at, number, last, before] = *place;
    let (number, last, before) = (number << 1 >> 1, last as u32 as usize, before as u8);
    let rest = match usize::try_from(at) {
        Ok(at) if at < text.len() => &text[at..],
        _ => return Answer::new(Answer::DONE, &[]),
    };
    let line = rest.split(|byte| *byte == b'\n').next().unwrap_or(rest);
    let last = b"LOAID".contains(&before).then_some((last, before));
    match record(mode, line) {
        Some(record) if in_order(last, record.at, record.letter) => {
            let Record {
                letter, at: here, ..
            } = record;
            let next = at + line.len() as u64 + 1;
            *place = [next, number + 1, here as u64, u64::from(letter)];
            let count = match record.bytes.len() {
                0 => record.places,
                bytes => bytes,
            };
            let values = [i64::from(letter), here as i64, count as i64];
            Answer::new(Answer::DONE, &values)
        }
        _ => Answer::new(Answer::MALFORMED_LINE, &[number as i64]),
    }
}

/// What the lines so far say.
struct Sheet {
    mode: Mode,
    listed: Vec<Option<u8>>,
    marks: Vec<u8>,
    /// The last line's position and letter.
    last: Option<(usize, u8)>,
}

impl Sheet {
    fn new(mode: Mode, length: usize) -> Sheet {
        Sheet {
            mode,
            listed: vec![None; length],
            marks: vec![0; length],
            last: None,
        }
    }

    /// One line more, or its refusal.
    fn line(&mut self, line: &[u8]) -> Result<(), u32> {
        let Record {
            letter, at, bytes, ..
        } = record(self.mode, line).ok_or(Answer::MALFORMED_LINE)?;
        if !in_order(self.last, at, letter) || self.contradicted(at, &bytes) {
            return Err(Answer::MALFORMED_LINE);
        }
        if !bytes.is_empty() && at + bytes.len() > self.listed.len() {
            return Err(Answer::LINE_PAST_END);
        }
        self.last = Some((at, letter));
        for (index, byte) in bytes.into_iter().enumerate() {
            self.listed[at + index] = Some(byte);
        }
        if letter == b'I' {
            self.marks[at] = TRACED;
        }
        Ok(())
    }

    fn contradicted(&self, at: usize, bytes: &[u8]) -> bool {
        let listed = self.listed.iter().skip(at);
        listed
            .zip(bytes)
            .any(|(listed, byte)| listed.is_some_and(|listed| listed != *byte))
    }
}

/// Whether a line may follow the last: further on, or at the same position by a later letter of these.
fn in_order(last: Option<(usize, u8)>, at: usize, letter: u8) -> bool {
    let rank = |letter| b"LOAI".iter().position(|other| *other == letter);
    match last {
        Some((last, before)) if last == at => match (rank(before), rank(letter)) {
            (Some(before), Some(now)) => before < now,
            _ => false,
        },
        Some((last, _)) => last < at,
        None => true,
    }
}

/// What a line says that is well formed: its bytes, or how many positions it has besides its own.
struct Record {
    letter: u8,
    at: usize,
    bytes: Vec<u8>,
    places: usize,
}

fn record(mode: Mode, line: &[u8]) -> Option<Record> {
    let fields: Vec<&[u8]> = line.split(|byte| *byte == b'\t').collect();
    let [[letter], at, rest @ ..] = &fields[..] else {
        return None;
    };
    let at = input::position(at)? as usize;
    let bytes = match letter {
        b'L' => rest.is_empty().then(Vec::new),
        b'O' | b'A' => places(rest),
        b'D' => data(rest),
        b'I' => instruction(mode, line, at, rest),
        _ => None,
    };
    Some(Record {
        letter: *letter,
        at,
        bytes: bytes?,
        places: match letter {
            b'O' | b'A' => rest.len(),
            _ => 0,
        },
    })
}

/// One position or more; they list no bytes.
fn places(fields: &[&[u8]]) -> Option<Vec<u8>> {
    let all = fields.iter().all(|field| input::position(field).is_some());
    (all && !fields.is_empty()).then(Vec::new)
}

fn data(fields: &[&[u8]]) -> Option<Vec<u8>> {
    match fields {
        [digits] => input::bytes(digits, MOST_BYTES),
        _ => None,
    }
}

/// The bytes are those of one instruction, which ends in memory, and the line is the writer's in the same mode.
fn instruction(mode: Mode, line: &[u8], at: usize, fields: &[&[u8]]) -> Option<Vec<u8>> {
    let bytes = input::bytes(fields.first()?, 3)?;
    let next = at + flow::size(bytes[0]);
    if at + bytes.len() != next || next > tracer::LONGEST {
        return None;
    }
    let written = listing::instruction_line(mode, &bytes, at);
    (written.as_bytes() == [line, b"\n"].concat()).then_some(bytes)
}
