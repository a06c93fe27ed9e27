//! What the plain writer prints, read back.

use super::example;
use super::stored::Case;
use compare::game::{self, VECTORS};
use compare::paper::input::Input;
use compare::paper::listing::{self, Arrivals};
use compare::paper::{Mode, flow};

/// The mode, but for the cases of the other.
const MODE: Mode = Mode::Unwrapped;
/// The game-like image has at least so many bytes.
const GAME: usize = 1_600;

const SHORT: [(&str, &[u8], &[u8]); 12] = [
    ("document 01's example", &example::IMAGE, &example::MARKS),
    ("no image", &[], &[]),
    (
        "a label, overlaps and arrivals at one position",
        &[0x80, 0xFF, 0x00, 0xA0],
        &[2, 2, 2, 2],
    ),
    (
        "three overlaps",
        &[0x44, 0x44, 0x44, 0x44, 0x64, 0xA0, 0xA0],
        &[2, 2, 2, 0, 2, 2, 2],
    ),
    (
        "two arrivals",
        &[0x80, 0x04, 0x80, 0x02, 0x00, 0x00, 0xA0],
        &[2, 0, 2, 0, 2, 2, 2],
    ),
    (
        "a mark of 3 becomes 2",
        &[0xB8, 0x0D, 0x21, 0x00, 0x00],
        &[2, 0, 3, 0, 0],
    ),
    (
        "marks of 1 become 0",
        &[0x80, 0x04, 0x01, 0x02, 0x03, 0x04, 0xA0],
        &[2, 0, 1, 0, 0, 0, 1],
    ),
    ("a waiting zero", &[0x00], &[1]),
    (
        "a waiting position that is covered",
        &[0x22, 0x01, 0x02, 0xA0],
        &[2, 1, 0, 2],
    ),
    ("a target below 0", &[0x01, 0x80], &[2, 0]),
    (
        "a branch to 0 and one to -1",
        &[0x01, 0xFE, 0x01, 0xFB],
        &[2, 0, 2, 0],
    ),
    ("zeros at the end", &[0xA0, 0x00, 0x00, 0x00], &[2, 0, 0, 0]),
];

/// Code at the end of memory.
const HIGH: [(&str, [u8; 2], [u8; 2]); 6] = [
    ("a target of 65,535", [0x01, 0xFF], [2, 0]),
    ("a target of 65,536", [0x01, 0x00], [2, 0]),
    ("the highest target", [0x01, 0x7F], [2, 0]),
    ("a conditional branch past memory", [0x80, 0x7F], [2, 0]),
    (
        "a jump at the end of memory has page 0",
        [0x28, 0x02],
        [2, 0],
    ),
    ("two Ret at the end of memory", [0xA0, 0xA0], [2, 2]),
];

pub fn cases() -> Vec<Case> {
    let (image, marks) = (&example::IMAGE, &example::MARKS);
    let example = listing::listing(MODE, image, marks, Arrivals::Declined);
    assert_eq!(example, example::TEXT);
    let short = SHORT
        .iter()
        .map(|(about, image, marks)| (*about, image.to_vec(), marks.to_vec()));
    let high = HIGH
        .iter()
        .map(|(about, code, marks)| (*about, at_end(code), at_end(marks)));
    let made = short.chain(high).chain(data());
    let small = made.flat_map(|(about, image, marks)| variants(MODE, about, &image, &marks));
    small.chain([every_first_byte(), game()]).collect()
}

/// Zeros up to the end of memory.
pub fn at_end(bytes: &[u8]) -> Vec<u8> {
    [vec![0; 65_536 - bytes.len()], bytes.to_vec()].concat()
}

/// Runs of data, and zeros that no line lists.
fn data() -> Vec<(&'static str, Vec<u8>, Vec<u8>)> {
    let run = |from: u8, to: u8| (from..=to).collect::<Vec<u8>>();
    let images = [
        ("16 bytes of data", run(1, 16)),
        ("17 bytes of data", run(1, 17)),
        ("33 bytes of data", run(200, 232)),
        ("40 zeros", vec![0; 40]),
        (
            "16 zeros between data",
            [run(1, 16), vec![0; 16], run(1, 3)].concat(),
        ),
        (
            "data that ends with zeros",
            [vec![0; 15], run(7, 8), vec![0; 20]].concat(),
        ),
    ];
    let mut all: Vec<_> = images
        .map(|(about, image)| (about, image.clone(), vec![0; image.len()]))
        .into();
    let image = [vec![0x01, 0x12], run(1, 18), vec![0xA0, 0x00, 0xFF]].concat();
    let marks = [vec![2], vec![0; 19], vec![2, 0, 0]].concat();
    all.push(("data between code", image, marks));
    all
}

/// Without arrivals and with them, with the last byte 10 and without. The image is restored, and of the marks
/// those of instructions.
pub fn variants(mode: Mode, about: &str, image: &[u8], marks: &[u8]) -> Vec<Case> {
    let plain = listing::listing(mode, image, marks, Arrivals::Declined);
    let whole = listing::listing(mode, image, marks, Arrivals::Chosen);
    let mut cases = vec![Case::new(about, &plain, image.len())];
    if whole != plain {
        cases.push(Case::new(
            &format!("{about}, with arrivals"),
            &whole,
            image.len(),
        ));
    }
    if let Some(text) = whole.strip_suffix('\n') {
        cases.push(Case::new(
            &format!("{about}, without the last byte 10"),
            text,
            image.len(),
        ));
    }
    let cases: Vec<Case> = cases.into_iter().map(|case| case.in_mode(mode)).collect();
    for case in &cases {
        check(case, image, marks);
    }
    cases
}

fn check(case: &Case, image: &[u8], marks: &[u8]) {
    let (answer, read, marked) = case.read();
    let left: Vec<u8> = marks.iter().map(|mark| mark & 2).collect();
    assert!(answer.done());
    assert_eq!((read, marked), (image.to_vec(), left));
}

/// An instruction of each first byte, one after the other.
fn every_first_byte() -> Case {
    let (mut image, mut marks) = (vec![], vec![]);
    for first in 0..=255u8 {
        let bytes = [first, first.wrapping_mul(7), first.wrapping_mul(13)];
        let size = flow::size(first);
        image.extend(&bytes[..size]);
        marks.extend(&[2, 0, 0][..size]);
    }
    let text = listing::listing(MODE, &image, &marks, Arrivals::Declined);
    let case = Case::new("every first byte", &text, image.len());
    check(&case, &image, &marks);
    case
}

fn game() -> Case {
    let image = game::image(GAME);
    let entries = VECTORS.map(|at| at as u32).to_vec();
    let input = Input { entries, image };
    let marks = listing::marks(&input).expect("no instruction is cut off");
    let text = listing::listing(MODE, &input.image, &marks, Arrivals::Chosen);
    let case = Case::new("a game-like image", &text, input.image.len());
    check(&case, &input.image, &marks);
    case
}
