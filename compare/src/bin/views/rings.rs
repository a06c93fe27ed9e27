//! Target marks and arrivals over the end of memory. The image has 65,536 bytes, all Ret and untouched but ten, which a
//! line gives with their marks: the last five and then the first five. Target marks have room for all; a line tells
//! those of the ten, of the others that they are 0, and the answer's value, 65,536, as 0. Of an arrival that lies among
//! the last five, a line tells the low byte.

use crate::{Given, LONGEST, Left, Lines, OLD};
use compare::paper::{Mode, views};

/// Where the last five bytes begin.
const SEAM: usize = 65_531;
const RET: u8 = 0xA0;

/// The last five bytes and the first five, their marks, and positions at which to ask for arrivals.
type Ring = ([u8; LONGEST], [u8; LONGEST], &'static [u32]);

const RINGS: [Ring; 4] = [
    // a Br over the end to 1, and at 0 a Bnz back over it to 65,534
    (
        [0xA0, 0xA0, 0x01, 0x02, 0xA0, 0x90, 0xFC, 0xA0, 0xA0, 0xA0],
        [0, 0, 2, 0, 0, 2, 0, 2, 0, 0],
        &[65_534, 1, 2],
    ),
    // both targets of a Bz are 0, and a Nop before it
    (
        [0xA0, 0xA0, 0x00, 0x80, 0x00, 0xA0, 0xA0, 0xA0, 0xA0, 0xA0],
        [0, 0, 2, 2, 0, 2, 0, 0, 0, 0],
        &[0, 65_534],
    ),
    // next of a Call is 0, and is not named; so is next of a Nop
    (
        [0xA0, 0xA0, 0xA0, 0x08, 0x03, 0xA0, 0xA0, 0xA0, 0xA0, 0xA0],
        [0, 0, 0, 2, 0, 2, 0, 0, 2, 0],
        &[0, 3],
    ),
    (
        [0xA0, 0xA0, 0xA0, 0xA0, 0x00, 0x01, 0xFD, 0xA0, 0xA0, 0xA0],
        [0, 0, 0, 0, 2, 2, 0, 0, 0, 0],
        &[0, 65_535],
    ),
];

/// Wrapping, and unwrapped where that is not the same.
pub fn cases(lines: &mut Lines) {
    for ring in &RINGS {
        in_modes(lines, ring, 0, 'T', |mode| target_marks(mode, ring));
        for position in ring.2 {
            in_modes(lines, ring, *position, 'F', |mode| {
                arrivals(mode, ring, *position)
            });
        }
    }
}

fn in_modes(
    lines: &mut Lines,
    (image, marks, _): &Ring,
    position: u32,
    letter: char,
    left: impl Fn(Mode) -> Left,
) {
    let given = Given::new(image, marks, position, LONGEST);
    let [unwrapped, wrapping] = [Mode::Unwrapped, Mode::Wrapping].map(left);
    if unwrapped != wrapping {
        lines.line(letter, &given, &unwrapped);
    }
    lines.line(letter.to_ascii_lowercase(), &given, &wrapping);
}

/// Ten bytes at the ends of as many as there are in memory.
fn whole(ten: &[u8; LONGEST], other: u8) -> Vec<u8> {
    let mut bytes = vec![other; 65_536];
    bytes[SEAM..].copy_from_slice(&ten[..5]);
    bytes[..5].copy_from_slice(&ten[5..]);
    bytes
}

fn target_marks(mode: Mode, (image, marks, _): &Ring) -> Left {
    let mut room = vec![OLD; 65_536];
    let answer = views::target_marks(mode, &whole(image, RET), &whole(marks, 0), &mut room);
    assert!(answer.done() && answer.values[0] == 65_536);
    assert!(room[5..SEAM].iter().all(|label| *label == 0));
    let mut left = Left::new();
    left.bytes[..5].copy_from_slice(&room[SEAM..]);
    left.bytes[5..].copy_from_slice(&room[..5]);
    left
}

fn arrivals(mode: Mode, (image, marks, _): &Ring, position: u32) -> Left {
    let mut left = Left::new();
    let (image, marks) = (whole(image, RET), whole(marks, 0));
    left.answer = views::arrivals(mode, &image, &marks, position, &mut left.places);
    left.places = left.places.map(|place| match place {
        0..5 => place,
        65_531.. => place & 0xFF,
        place => {
            assert_eq!(place, u32::from(OLD), "what stays");
            place
        }
    });
    left
}
