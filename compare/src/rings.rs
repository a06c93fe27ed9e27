//! Images of the longest length, or nearly, with code at both ends that leads over the end of memory: in wrapping mode
//! it comes to the other end's code.

use compare::original;
use compare::paper::flow;
use compare::random::Random;

/// The longest image.
const LONGEST: usize = pottagewing::IMAGE_LIMIT;
/// The most bytes of code at an end: a short branch leads from any of them over the end of memory.
const END: u64 = 126;
const RET: u8 = 0xA0;
/// Between the ends so many bytes are zeros up to the next Ret: a jump to there goes no further.
const BETWEEN: usize = 256;
/// Instructions of one byte that go on.
const ONWARD: [u8; 3] = [0x00, 0x64, 0xC0];
/// A short branch of each form.
const BRANCHES: [u8; 14] = [
    0x01, 0x80, 0x90, 0x6C, 0x48, 0x99, 0x52, 0x32, 0x42, 0x54, 0x31, 0x41, 0x34, 0x44,
];
/// A Callr, a Brf, a Callf, a Jmpf, a Call and a Jmp.
const FAR: [u8; 6] = [0x10, 0x11, 0x20, 0x21, 0x08, 0x28];
/// The exception's bytes.
const FLASH: [u8; 3] = [0xB8, 0x0D, 0x21];

/// An image, and entries at its ends.
pub fn image(random: &mut Random) -> (Vec<u8>, Vec<u32>) {
    let length = match random.below(8) {
        0 | 1 => LONGEST - random.below(7) as usize,
        2 => LONGEST - random.below(END + 4) as usize,
        _ => LONGEST,
    };
    let mut image = between(length);
    let low = code(random);
    let high = code(random);
    image[..low.len()].copy_from_slice(&low);
    image[low.len()..low.len() + 3].fill(RET);
    let from = length - high.len();
    image[from..].copy_from_slice(&high);
    if random.below(4) > 0 {
        close(random, &mut image);
    }
    let entries = (0..random.pick(&[1, 1, 2, 3])).map(|_| position(random, length));
    (image, entries.collect())
}

/// Mostly zeros, which make short listings.
fn between(length: usize) -> Vec<u8> {
    let mut image = vec![0x00; length];
    image
        .iter_mut()
        .step_by(BETWEEN)
        .for_each(|byte| *byte = RET);
    image
}

/// A position at one of the ends, or any.
pub fn position(random: &mut Random, length: usize) -> u32 {
    let from_end = random.below(END.min(length.max(1) as u64));
    match random.below(16) {
        0..7 => from_end as u32,
        7..14 => (length as u32).saturating_sub(1 + from_end as u32),
        14 => random.pick(&[0, 65_533, 65_534, 65_535, 65_536]),
        _ => random.below(length.max(1) as u64) as u32,
    }
}

/// The positions of a list whose instruction is whole and has a target that leaves memory.
pub fn leaving(image: &[u8], positions: impl IntoIterator<Item = u32>) -> Vec<u32> {
    let leaves = |at: &u32| {
        let rest = image.get(*at as usize..).unwrap_or(&[]);
        let whole = rest
            .first()
            .is_some_and(|first| flow::size(*first) <= rest.len());
        whole && !flow::stays(image, *at as usize)
    };
    positions.into_iter().filter(leaves).collect()
}

/// No instruction of the last bytes is cut off that the code above comes to: they go on, or branch.
fn close(random: &mut Random, image: &mut [u8]) {
    let offset = random.any() as u8;
    let last = match random.below(16) {
        0..4 => [0x00, 0x00, 0x00],
        4..8 => [0x00, random.pick(&[0x01, 0x80, 0x90]), offset],
        8..12 => [0x31, random.pick(&ONWARD), offset],
        12..15 => [0x10, 0x00, 0x00],
        _ => [0x00, 0xB8, 0x0D],
    };
    let end = image.len() - last.len();
    image[end..].copy_from_slice(&last);
    if last.ends_with(&FLASH[..2]) {
        // No exception: nothing stands before position 0.
        image[0] = FLASH[2];
    }
}

/// Instructions, most of them short branches of any offset.
fn code(random: &mut Random) -> Vec<u8> {
    let length = 3 + random.below(END - 2) as usize;
    let mut code = vec![];
    while code.len() < length {
        match random.below(200) {
            0..90 => instruction(&mut code, random, &BRANCHES),
            90..150 => code.push(random.pick(&ONWARD)),
            150..175 => far(&mut code, random),
            175..185 => code.push(random.any() as u8),
            185..199 => code.push(RET),
            _ => code.extend(FLASH),
        }
    }
    code.truncate(length);
    code
}

fn instruction(code: &mut Vec<u8>, random: &mut Random, firsts: &[u8]) {
    let first = random.pick(firsts);
    code.push(first);
    for _ in 1..original::size(original::form(first)) {
        code.push(random.any() as u8);
    }
}

/// A far jump or call: of a Jmpf or a Callf to one of the ends.
fn far(code: &mut Vec<u8>, random: &mut Random) {
    let at = code.len();
    instruction(code, random, &FAR);
    if matches!(code[at], 0x20 | 0x21) {
        let address = position(random, LONGEST).to_be_bytes();
        code[at + 1..].copy_from_slice(&address[2..]);
    }
}
