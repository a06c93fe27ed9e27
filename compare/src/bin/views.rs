//! Prints views over images of up to ten bytes, one case a line, for a program of the repository to replay.
//!
//! A line is a letter for the call and 49 bytes of two hexadecimal digits each, so all lines are of one
//! length: ten bytes of image and ten marks (0 past their lengths), the length of the image, of the marks and
//! of the room, the position in four bytes, the number of the answer and its first value, and what stands
//! in two rooms of ten afterwards, one of bytes and one of positions, which hold nines before.
//!
//! - `M`: the byte mask. `L`: the target marks. `O`: overlaps. `A`: arrivals.
//! - `B`: the data run, which has its mask where the others have marks.
//! - `l`, `a`: target marks and arrivals in wrapping mode.
//! - `T`, `F`: target marks and arrivals over the end of memory; `t`, `f`: these in wrapping mode. See `rings.rs`.
//!
//! Over the marks of a whole trace the answers are the original's; those that it has none for, refusals
//! and marks that no trace leaves, are document 01's, and those in wrapping mode document 02's.

#[path = "views/rings.rs"]
mod rings;

use compare::answer::Answer;
use compare::original::{traced, viewed};
use compare::paper::{Mode, tracer, views};
use std::collections::HashSet;
use std::fmt::Write;
use waterbear::disasm::probe::Graph;

/// The longest image, and the length of the rooms.
const LONGEST: usize = 10;
/// What stands in the rooms before.
const OLD: u8 = 9;
/// More visits than any image here costs the original.
const ENOUGH: u64 = 10_000;

/// Images with entries, each traced to its end, and positions to look at.
const TRACED: [(&[u8], &[u32], &[u32]); 9] = [
    (&[0x22, 0x01, 0x00, 0xA0], &[0, 2], &[0, 2, 3]),
    (&[0x01, 0x80], &[0], &[0, 2, u32::MAX]),
    (&[0xB8, 0x0D, 0x21, 0x00, 0x00], &[0], &[2]),
    (&[0xB8, 0x0D, 0x21, 0x00, 0x00], &[2], &[0, 2]),
    (
        &[0x01, 0x02, 0x00, 0x41, 0x64, 0x80, 0xF9, 0xA0],
        &[0],
        &[0, 2, 8],
    ),
    (&[0x08, 0x04, 0xA0, 0x00, 0x28, 0x02], &[0], &[2, 4]),
    (&[0x31, 0x81, 0x81, 0x00, 0xA0], &[0, 1, 2], &[1, 2]),
    (&[0x00; LONGEST], &[7], &[7, 65_536]),
    (&[], &[0], &[0]),
];

/// An image, its marks, a position and the length of the room.
type Alone = (&'static [u8], &'static [u8], u32, usize);

/// What the original has no answer for.
const ALONE: [Alone; 10] = [
    // a byte over 4, a 2 on a cut-off instruction, a 3 on one, a 3 off a Jmpf: the lowest is named
    (&[0xA0, 0x00, 0xA0], &[2, 4, 255], 0, LONGEST),
    (&[0x00, 0x68, 0x00], &[2, 2, 9], 0, LONGEST),
    (&[0xA0, 0x21], &[2, 3], 0, LONGEST),
    (&[0xA0, 0x20, 0x00, 0x00], &[0, 3, 0, 0], 0, LONGEST),
    // damage past the image is none
    (&[0xA0], &[2, 9, 9], 0, LONGEST),
    // marks shorter than the image, before damage
    (&[0x00, 0xA0, 0xA0], &[4, 4], 0, LONGEST),
    // a 3 with no B8 0D before it names its target, and had none
    (&[0x21, 0x00, 0x00], &[3, 0, 0], 0, LONGEST),
    // no room
    (&[0x80, 0x00, 0xA0], &[2, 0, 2], 2, 0),
    (&[0x22, 0x01, 0x00, 0xA0], &[2, 2, 2, 2], 1, 2),
    // three overlaps, in a room that has no more
    (&[0x22, 0x31, 0x00, 0x00, 0xA0], &[2, 2, 2, 2, 1], 1, 3),
];

/// Images, masks and positions of data runs for which the original has no answer or no such mask.
const RUNS: [(&[u8], &[u8], u32); 6] = [
    (&[1; LONGEST], &[0; LONGEST], 0),
    (&[1; LONGEST], &[0; LONGEST], 9),
    (&[1; LONGEST], &[0, 0, 0, 255], 1),
    (&[1; LONGEST], &[0; 6], 2),
    (&[1; LONGEST], &[], 0),
    (&[1, 2, 3], &[0; LONGEST], 4),
];

/// Images, marks and positions in wrapping mode: no wrapped target lies in so short an image, and the refusals are the
/// same.
const WRAPPING: [(&[u8], &[u8], u32); 3] = [
    (&[0x01, 0x80], &[2, 0], 0),
    (
        &[0x01, 0x02, 0x00, 0x41, 0x64, 0x80, 0xF9, 0xA0],
        &[2, 0, 0, 0, 2, 2, 0, 2],
        0,
    ),
    (&[0xA0, 0x00, 0xA0], &[2, 4, 255], 0),
];

fn main() {
    let mut lines = Lines::default();
    for (image, entries, positions) in TRACED {
        let told = traced::trace(entries, image, ENOUGH).expect("few visits are enough");
        let graph = told.graph.expect("none is cut off");
        let (mut marks, mut order) = (vec![0; image.len()], vec![0; image.len()]);
        let mode = Mode::Unwrapped;
        tracer::run(mode, image, &mut marks, &mut order, entries, &[], u32::MAX);
        lines.of_trace(image, &marks, positions, &graph);
    }
    for (image, marks, position, room) in ALONE {
        Given::new(image, marks, position, room).lines(&mut lines);
    }
    for (image, mask, position) in RUNS {
        let given = Given::new(image, mask, position, LONGEST);
        lines.data_run(&given);
    }
    for (image, marks, position) in WRAPPING {
        Given::new(image, marks, position, LONGEST).wrapping(&mut lines);
    }
    rings::cases(&mut lines);
    print!("{}", lines.text);
    eprintln!(
        "{} views, made by 'compare/run --views SRC'",
        lines.seen.len()
    );
}

/// What a view is given.
struct Given<'a> {
    image: &'a [u8],
    marks: &'a [u8],
    position: u32,
    room: usize,
}

/// The lines, without repeats.
#[derive(Default)]
struct Lines {
    text: String,
    seen: HashSet<String>,
}

/// What a view answers and leaves.
#[derive(Debug, PartialEq)]
struct Left {
    answer: Answer,
    bytes: [u8; LONGEST],
    places: [u32; LONGEST],
}

impl Left {
    fn new() -> Left {
        Left {
            answer: Answer::new(Answer::DONE, &[]),
            bytes: [OLD; LONGEST],
            places: [u32::from(OLD); LONGEST],
        }
    }

    fn of_bytes(list: &[u8]) -> Left {
        let mut left = Left::new();
        left.answer.values[0] = list.len() as i64;
        left.bytes[..list.len()].copy_from_slice(list);
        left
    }

    fn of_places(list: &[u32]) -> Left {
        let mut left = Left::new();
        left.answer.values[0] = list.len() as i64;
        left.places[..list.len()].copy_from_slice(list);
        left
    }
}

impl Lines {
    /// What the original tells must be as document 01's views have it.
    fn of_trace(&mut self, image: &[u8], marks: &[u8], positions: &[u32], graph: &Graph) {
        let mask = viewed::mask(graph, image);
        for position in positions {
            let given = Given::new(image, marks, *position, LONGEST);
            let [m, l, o, a] = given.views(Mode::Unwrapped);
            assert_eq!(m, Left::of_bytes(&mask));
            assert_eq!(l, Left::of_bytes(&viewed::target_marks(graph, image)));
            assert_eq!(o, Left::of_places(&viewed::overlaps(graph, *position)));
            if let Some(list) = viewed::arrivals(graph, image, *position) {
                assert_eq!(a, Left::of_places(&list));
            }
            given.lines(self);
            self.data_run(&Given::new(image, &mask, *position, LONGEST));
        }
    }

    fn data_run(&mut self, given: &Given) {
        let mut left = Left::new();
        left.answer = views::data_run(given.image, given.marks, given.position);
        let told = viewed::data_run(given.image, given.marks, given.position);
        assert!(told.is_none_or(|told| told == left.answer));
        self.line('B', given, &left);
    }

    fn line(&mut self, call: char, given: &Given, left: &Left) {
        let ten = |bytes: &[u8]| -> Vec<u8> {
            let byte = |at: usize| bytes.get(at).copied().unwrap_or(0);
            (0..LONGEST).map(byte).collect()
        };
        let lengths = [given.image.len(), given.marks.len(), given.room].map(byte);
        let [value, rest @ ..] = left.answer.values;
        assert_eq!(rest, [0; 4], "one value is all that a view has");
        let fields = [
            ten(given.image),
            ten(given.marks),
            lengths.to_vec(),
            given.position.to_be_bytes().to_vec(),
            vec![byte(left.answer.number as usize), byte(value as usize)],
            left.bytes.to_vec(),
            left.places.map(|place| byte(place as usize)).to_vec(),
        ];
        let mut line = String::from(call);
        for byte in fields.concat() {
            write!(line, "{byte:02X}").expect("a string takes any text");
        }
        assert!(line.len() == 99, "49 bytes");
        line.push('\n');
        if self.seen.insert(line.clone()) {
            self.text += &line;
        }
    }
}

fn byte(number: usize) -> u8 {
    u8::try_from(number).expect("short images have small numbers")
}

impl<'a> Given<'a> {
    fn new(image: &'a [u8], marks: &'a [u8], position: u32, room: usize) -> Given<'a> {
        Given {
            image,
            marks,
            position,
            room,
        }
    }

    /// Document 01's mask, target marks, overlaps and arrivals. The first two have no position.
    fn views(&self, mode: Mode) -> [Left; 4] {
        let (image, marks, at) = (self.image, self.marks, self.position);
        let mut all = [(); 4].map(|()| Left::new());
        let [m, l, o, a] = &mut all;
        m.answer = views::mask(image, marks, &mut m.bytes[..self.room]);
        l.answer = views::target_marks(mode, image, marks, &mut l.bytes[..self.room]);
        o.answer = views::overlaps(image, marks, at, &mut o.places[..self.room]);
        a.answer = views::arrivals(mode, image, marks, at, &mut a.places[..self.room]);
        all
    }

    fn lines(&self, lines: &mut Lines) {
        let [m, l, o, a] = self.views(Mode::Unwrapped);
        let whole = Given::new(self.image, self.marks, 0, self.room);
        lines.line('M', &whole, &m);
        lines.line('L', &whole, &l);
        lines.line('O', self, &o);
        lines.line('A', self, &a);
    }

    /// What uses targets, in wrapping mode.
    fn wrapping(&self, lines: &mut Lines) {
        let [_, l, _, a] = self.views(Mode::Wrapping);
        let whole = Given::new(self.image, self.marks, 0, self.room);
        lines.line('l', &whole, &l);
        lines.line('a', self, &a);
    }
}
