//! Document 01's listing, in both modes of document 02, and the listing program's output, written out a second time
//! and plainly.

use super::input::{self, Input};
use super::{Kind, Mode, fields, flow, kinds, tracer, views};
use crate::answer::Answer;
use crate::original;
use std::fmt::Write;

/// The mode of the listing program.
const PROGRAM: Mode = Mode::Unwrapped;

/// The whole output of the listing program.
pub fn output(text: &[u8]) -> String {
    match input::parse(text) {
        Err(_) => "R\t13\n".to_string(),
        Ok(input) => match marks(&input) {
            Err(answer) => refusal(&answer),
            Ok(marks) => listing(PROGRAM, &input.image, &marks, Arrivals::Declined),
        },
    }
}

/// The line of a refusal: the number, and after 5 the number of missing bytes.
fn refusal(answer: &Answer) -> String {
    match answer.number {
        Answer::CUT_OFF => format!("R\t5\t{}\n", answer.values[2]),
        number => format!("R\t{number}\n"),
    }
}

/// The marks of the listing program's run, with the image length as limit, or its refusal.
pub fn marks(input: &Input) -> Result<Vec<u8>, Answer> {
    let length = input.image.len();
    let (mut marks, mut order) = (vec![0; length], vec![0; length]);
    let (image, entries, limit) = (&input.image, &input.entries, length as u32);
    let answer = tracer::run(PROGRAM, image, &mut marks, &mut order, entries, &[], limit);
    if answer.done() {
        Ok(marks)
    } else {
        Err(answer)
    }
}

#[derive(Clone, Copy, PartialEq)]
pub enum Arrivals {
    Chosen,
    Declined,
}

impl Arrivals {
    /// Without a choice. Document 02, W5: they are shown unless they are declined.
    pub const DEFAULT: Arrivals = Arrivals::Chosen;
}

/// The listing in lent room, or its refusal.
pub fn shown(
    mode: Mode,
    image: &[u8],
    marks: &[u8],
    arrivals: Arrivals,
    room: &mut [u8],
) -> Answer {
    views::show(image, marks, room, || {
        listing(mode, image, marks, arrivals).into_bytes()
    })
}

/// The listing of marks that are not damaged.
pub fn listing(mode: Mode, image: &[u8], marks: &[u8], arrivals: Arrivals) -> String {
    let (mut mask, mut labels) = (vec![0; image.len()], vec![0; image.len()]);
    assert!(views::mask(image, marks, &mut mask).done());
    assert!(views::target_marks(mode, image, marks, &mut labels).done());
    let arrived = match arrivals {
        Arrivals::Chosen => arrived(mode, image, marks),
        Arrivals::Declined => vec![],
    };
    let mut lines = Lines::default();
    let mut at = 0;
    while at < image.len() {
        if tracer::is_traced(marks[at]) {
            if labels[at] == 1 {
                lines.line('L', at, &[]);
            }
            lines.places('O', at, &views::overlaps_at(image, marks, at));
            if let Some(from) = arrived.get(at) {
                lines.places('A', at, from);
            }
            let bytes = flow::instruction(image, at);
            lines.line('I', at, &instruction(mode, bytes, at));
            at += 1;
        } else if mask[at] == 0 {
            let run = data_run(image, &mask, at);
            if run.iter().any(|byte| *byte != 0) {
                lines.line('D', at, &[hex(run)]);
            }
            at += run.len();
        } else {
            at += 1;
        }
    }
    lines.0
}

/// The arrivals at every position.
fn arrived(mode: Mode, image: &[u8], marks: &[u8]) -> Vec<Vec<u32>> {
    let mut lists = vec![vec![]; image.len()];
    for from in views::followed(image, marks) {
        let mut targets = flow::targets_at(mode, image, from);
        targets.dedup();
        for target in targets {
            if (0..image.len() as i64).contains(&target) {
                lists[target as usize].push(from as u32);
            }
        }
    }
    lists
}

fn data_run<'a>(image: &'a [u8], mask: &[u8], at: usize) -> &'a [u8] {
    let length = views::data_run(image, mask, at as u32).values[0];
    &image[at..at + length as usize]
}

/// One `I` line in lent room, or its refusal: by the bytes, by the position, by the room.
pub fn code_line(mode: Mode, position: u32, bytes: &[u8], room: &mut [u8]) -> Answer {
    let Some(first) = bytes.first() else {
        return Answer::new(Answer::NOTHING, &[]);
    };
    if let Some(refusal) = tracer::cut_off(bytes, 0) {
        return refusal;
    }
    let size = flow::size(*first);
    let next = i64::from(position) + size as i64;
    if next > tracer::LONGEST as i64 {
        return Answer::new(Answer::PAST_MEMORY, &[next]);
    }
    let line = instruction_line(mode, &bytes[..size], position as usize);
    let count = [line.len() as i64];
    if room.len() < line.len() {
        return Answer::new(Answer::NO_ROOM, &count);
    }
    room[..line.len()].copy_from_slice(line.as_bytes());
    Answer::new(Answer::DONE, &count)
}

/// The line of an instruction of these bytes at a position.
pub fn instruction_line(mode: Mode, bytes: &[u8], at: usize) -> String {
    let mut lines = Lines::default();
    lines.line('I', at, &instruction(mode, bytes, at));
    lines.0
}

/// The bytes, the mnemonic and the operands of the instruction at a position.
fn instruction(mode: Mode, bytes: &[u8], at: usize) -> Vec<String> {
    let form = original::form(bytes[0]);
    let name = original::name(form);
    let mnemonic = name.split('_').next().unwrap_or(name).to_lowercase();
    let shown = fields::fields(bytes).into_iter().zip(kinds(form));
    let operands = shown.map(|(field, kind)| match kind {
        Kind::Immediate => format!("#{field:02X}"),
        Kind::Cell => format!("{field:03X}"),
        Kind::Bit => format!("{field}"),
        Kind::Register => format!("@R{field}"),
        _ => target(flow::targets_of(mode, bytes, at)[0]),
    });
    [hex(bytes), mnemonic].into_iter().chain(operands).collect()
}

fn target(target: i64) -> String {
    match target {
        0..=65_535 => format!("{target:04X}"),
        _ => "?".to_string(),
    }
}

pub(super) fn hex(bytes: &[u8]) -> String {
    bytes.iter().map(|byte| format!("{byte:02X}")).collect()
}

#[derive(Default)]
struct Lines(String);

impl Lines {
    /// A line of positions, if there are any.
    fn places(&mut self, letter: char, at: usize, places: &[u32]) {
        if !places.is_empty() {
            let places: Vec<String> = places.iter().map(|at| format!("{at:04X}")).collect();
            self.line(letter, at, &places);
        }
    }

    fn line(&mut self, letter: char, at: usize, fields: &[String]) {
        write!(self.0, "{letter}\t{at:04X}").expect("a string takes any text");
        for field in fields {
            self.0.push('\t');
            self.0 += field;
        }
        self.0.push('\n');
    }
}
