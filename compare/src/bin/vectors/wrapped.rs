//! Wrapping mode beside the unwrapped one: resolve and targets at the ends of memory, short images, and the longest image
//! traced over its end. The answers are the plain side's; unwrapped, what the original answers must be the same.

use crate::Lines;
use crate::packed::{self, LONGEST, OLD_MARK, OLD_PLACE};
use compare::answer::Answer;
use compare::original::{self, Resolver, traced};
use compare::paper::{self, Mode, flow, sweep, tracer};
use compare::seen::Seen;

const NO_LIMIT: u32 = u32::MAX;
/// More visits than any image here costs the original.
const ENOUGH: u64 = 10_000;
/// Where the last five bytes of the longest image begin, and the other bytes.
const SEAM: u32 = 65_531;
const RET: u8 = 0xA0;
/// So many of the images below are also swept, and taken up by one step.
const SOME: usize = 5;

/// A form's first byte, its operands and a base: document 02's cases, then those at the limits.
const RESOLVED: [(u8, [i32; 3], u32); 25] = [
    (0x01, [5, 0, 0], 65_534),
    (0x01, [0, 0, 0], 40_000),
    // the ends of a short offset over either end of memory
    (0x01, [65_410, 0, 0], 2),
    (0x01, [65_409, 0, 0], 2),
    (0x01, [65_535, 0, 0], 0),
    (0x80, [126, 0, 0], 65_535),
    (0x80, [127, 0, 0], 65_535),
    (0x34, [1, 255, 50], 65_500),
    (0x68, [0x10D, 7, 65_510], 100),
    // where the difference turns
    (0x01, [32_767, 0, 0], 0),
    (0x01, [32_768, 0, 0], 0),
    (0x01, [0, 0, 0], 32_768),
    (0x01, [0, 0, 0], 32_769),
    // the highest base, and past it
    (0x01, [0, 0, 0], 65_536),
    (0x01, [127, 0, 0], 65_536),
    (0x01, [128, 0, 0], 65_536),
    (0x01, [65_535, 0, 0], 65_536),
    (0x01, [0, 0, 0], 65_537),
    // an address is not wrapped, and comes before the difference; what comes before it is named first
    (0x01, [65_536, 0, 0], 65_536),
    (0x01, [-1, 0, 0], 0),
    (0x68, [0, 8, 0], 65_536),
    // what is no short branch
    (0x11, [0, 0, 0], 65_536),
    (0x10, [65_535, 0, 0], 0),
    (0x28, [0x0FFF, 0, 0], 65_536),
    (0x28, [0xF000, 0, 0], 65_536),
];

/// A form's first byte, its fields and a position.
const TARGETED: [(u8, [i32; 3], u32); 20] = [
    (0x01, [-128, 0, 0], 0),
    (0x00, [0; 3], 65_535),
    (0x01, [-3, 0, 0], 0),
    (0x01, [-2, 0, 0], 0),
    (0x01, [-1, 0, 0], 65_534),
    (0x01, [0, 0, 0], 65_534),
    (0x01, [127, 0, 0], 65_534),
    (0x80, [0, 0, 0], 65_534),
    (0x80, [-128, 0, 0], 0),
    (0x34, [3, 255, 127], 65_533),
    (0x22, [1, 2, 0], 65_533),
    // calls and jumps: what they name, and next
    (0x08, [3, 0, 0], 65_534),
    (0x28, [3, 0, 0], 65_534),
    (0x20, [65_535, 0, 0], 65_533),
    (0x10, [0xFFFF, 0, 0], 65_533),
    (0xA0, [0; 3], 65_535),
    // refused in both modes by next as it is
    (0x01, [0, 0, 0], 65_535),
    (0x00, [0; 3], 65_536),
    (0x01, [128, 0, 0], 65_535),
    (0x01, [128, 0, 0], 0),
];

/// Short images, in which no wrapped target lies.
const SHORT: [(&[u8], &[u32]); 4] = [
    (&[0x01, 0x80], &[0]),
    (&[0x80, 0xFD, 0xA0], &[0]),
    (&[0x01, 0x03, 0x64, 0x80, 0x02, 0x01, 0xFB, 0xA0], &[0]),
    (&[0x68, 0x00], &[0]),
];

/// The last five bytes of the longest image, its first five, and entries.
type Ring = ([u8; 5], [u8; 5], [u32; 2]);

const RINGS: [Ring; 16] = [
    // a Nop goes on to 0
    ([0xA0, 0xA0, 0xA0, 0xA0, 0x00], [0xA0; 5], [65_535, 65_536]),
    // a Br below 0, and one above 65,535
    ([0xA0; 5], [0x01, 0xFB, 0xA0, 0xA0, 0xA0], [0, 65_536]),
    ([0xA0, 0xA0, 0xA0, 0x01, 0x02], [0xA0; 5], [65_534, 65_536]),
    // both targets of a Bz are 0; one is
    ([0xA0, 0xA0, 0xA0, 0x80, 0x00], [0xA0; 5], [65_534, 65_536]),
    ([0xA0, 0xA0, 0x80, 0x01, 0xA0], [0xA0; 5], [65_533, 65_536]),
    // a branch of three bytes, back from the end and on
    ([0xA0, 0xA0, 0x31, 0x00, 0xFB], [0xA0; 5], [65_533, 65_536]),
    // a Call, whose page is the first, a Callf and a Callr: next is 0
    ([0xA0, 0xA0, 0xA0, 0x08, 0x03], [0xA0; 5], [65_534, 65_536]),
    ([0xA0, 0xA0, 0x20, 0x00, 0x04], [0xA0; 5], [65_533, 65_536]),
    ([0xA0, 0xA0, 0x10, 0x03, 0x00], [0xA0; 5], [65_533, 65_536]),
    // round and round
    ([0x00; 5], [0x00, 0x00, 0x00, 0x01, 0xF6], [2, 65_536]),
    (
        [0x80, 0x03, 0x00, 0x80, 0x01],
        [0x90, 0xFC, 0x64, 0x01, 0xF8],
        [65_531, 2],
    ),
    // cut off at the end, at once or over the end
    ([0xA0, 0xA0, 0xA0, 0xA0, 0x01], [0xA0; 5], [65_535, 65_536]),
    (
        [0xA0, 0xA0, 0xA0, 0xA0, 0x68],
        [0x01, 0xFD, 0xA0, 0xA0, 0xA0],
        [0, 65_536],
    ),
    // a Jmpf that B8 0D stands before; at 0 nothing stands before it
    ([0xB8, 0x0D, 0x21, 0x00, 0x02], [0xA0; 5], [65_531, 65_536]),
    (
        [0xA0, 0xA0, 0xA0, 0xB8, 0x0D],
        [0x21, 0x00, 0x04, 0xA0, 0xA0],
        [65_534, 65_536],
    ),
    // nothing leaves memory
    (
        [0x01, 0x01, 0xA0, 0xA0, 0xA0],
        [0x80, 0x01, 0xA0, 0xA0, 0xA0],
        [65_531, 0],
    ),
];

pub fn cases(lines: &mut Lines) {
    for (first, operands, base) in RESOLVED {
        let inputs = inputs(first, operands, base);
        in_modes(lines, 'R', inputs, |mode| {
            resolved(mode, first, operands, base)
        });
    }
    for (first, fields, position) in TARGETED {
        let inputs = inputs(first, fields, position);
        in_modes(lines, 'T', inputs, |mode| {
            flow::targets(mode, first, fields, position)
        });
    }
    for (image, listed) in SHORT {
        let entries = packed::entries(listed);
        let given = packed::given(image, entries);
        for (letter, call) in [('g', Call::Run), ('w', Call::Sweep)] {
            lines.case(
                letter,
                given,
                Left::of(call, Mode::Wrapping, image, entries).short(),
            );
        }
    }
    RINGS
        .iter()
        .for_each(|ring| over_the_end(lines, 'O', Call::Run, ring));
    for ring in &RINGS[..SOME] {
        over_the_end(lines, 'S', Call::Sweep, ring);
        over_the_end(lines, 'P', Call::Step, ring);
    }
}

/// A case in wrapping mode, under the small letter; and unwrapped where that is not the same, or where both are refused
/// by a base, or next, as it is.
fn in_modes(lines: &mut Lines, letter: char, inputs: [i64; 5], answer: impl Fn(Mode) -> Answer) {
    let [unwrapped, wrapping] = [Mode::Unwrapped, Mode::Wrapping].map(answer);
    if unwrapped != wrapping || unwrapped.number == Answer::PAST_MEMORY {
        lines.case(letter, inputs, unwrapped);
    }
    lines.case(letter.to_ascii_lowercase(), inputs, wrapping);
}

fn inputs(first: u8, numbers: [i32; 3], last: u32) -> [i64; 5] {
    let [a, b, c] = numbers.map(i64::from);
    [i64::from(first), a, b, c, i64::from(last)]
}

fn resolved(mode: Mode, first: u8, operands: [i32; 3], base: u32) -> Answer {
    let answer = paper::resolve(mode, first, operands, base);
    let form = original::form(first);
    if mode == Mode::Unwrapped && paper::original_has(form, operands, base) {
        assert_eq!(answer, Resolver::new().resolve(form, operands, base));
    }
    answer
}

#[derive(Clone, Copy, PartialEq)]
enum Call {
    Run,
    Sweep,
    /// At the first entry.
    Step,
}

/// What a call answers and leaves.
struct Left {
    answer: Answer,
    order: Vec<u32>,
    marks: Vec<u8>,
}

impl Left {
    fn of(call: Call, mode: Mode, image: &[u8], entries: [u32; 2]) -> Left {
        let lent = image.len().max(LONGEST);
        let (mut marks, mut order) = (vec![OLD_MARK; lent], vec![OLD_PLACE; lent]);
        let answer = match call {
            Call::Run => tracer::run(mode, image, &mut marks, &mut order, &entries, &[], NO_LIMIT),
            Call::Sweep => sweep::sweep(mode, image, &mut marks, &entries, &[]),
            Call::Step => {
                tracer::start(image, &mut marks, &entries, &[]);
                tracer::step(mode, image, &mut marks, entries[0])
            }
        };
        if call == Call::Run && mode == Mode::Unwrapped {
            as_traced(&answer, &order, &marks[..image.len()], image, entries);
        }
        Left {
            answer,
            order,
            marks,
        }
    }

    fn short(&self) -> Answer {
        let Left { order, marks, .. } = self;
        let order = order[..].try_into().expect("a list of ten");
        let marks = marks[..].try_into().expect("ten marks");
        packed::left(&self.answer, order, marks)
    }

    /// In the ten positions; all others are untouched.
    fn ring(&self) -> Answer {
        let place = |position: u32| match position {
            OLD_PLACE => OLD_PLACE,
            0..5 => position + 5,
            SEAM..65_536 => position - SEAM,
            _ => panic!("{position} is not among the ten"),
        };
        let (order, stays) = self.order.split_at(LONGEST);
        assert!(stays.iter().all(|place| *place == OLD_PLACE));
        assert!(self.marks[5..SEAM as usize].iter().all(|mark| *mark == 0));
        let order: Vec<u32> = order.iter().map(|position| place(*position)).collect();
        let marks = [&self.marks[SEAM as usize..], &self.marks[..5]].concat();
        let order = order[..].try_into().expect("a list of ten");
        let marks = marks[..].try_into().expect("ten marks");
        packed::left(&self.answer, order, marks)
    }
}

/// What the original tells of a run must be as the plain one has it.
fn as_traced(answer: &Answer, order: &[u32], marks: &[u8], image: &[u8], entries: [u32; 2]) {
    let told = traced::trace(&entries, image, ENOUGH).expect("few visits are enough");
    let seen = Seen::of(answer, marks, order, told.unfollowed.is_some());
    assert_eq!(seen, told.under(NO_LIMIT), "entries {entries:?}");
}

fn over_the_end(lines: &mut Lines, letter: char, call: Call, ring: &Ring) {
    let (last, first, entries) = *ring;
    let mut image = vec![RET; 65_536];
    image[SEAM as usize..].copy_from_slice(&last);
    image[..5].copy_from_slice(&first);
    let given = packed::given(&[last, first].concat(), entries);
    in_modes(lines, letter, given, |mode| {
        Left::of(call, mode, &image, entries).ring()
    });
}
