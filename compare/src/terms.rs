//! Texts of the term report by chance: good images, each kind of malformed ones, and what stands between them.

use crate::edits;
use compare::images::{self, KINDS};
use compare::paper::input::{MOST_BYTES, MOST_ENTRIES, MOST_IN_LINE};
use compare::paper::report::LONGEST_NAME;
use compare::random::Random;

/// Bytes that matter in a term, right ones and wrong ones, the neighbours of letters and digits among them.
const TELLING: &[u8] = b"N0123456789ABCDEF\t\t\n\n\n\r \0-/:@G[`agz{\x7F\xFF";
/// Bytes of which a text in no order is good at times.
const LOOSE: &[u8] = b"NNN\t\t\t\n\n\n\n\n-00000A";
const ALPHANUMERIC: &[u8] = b"ABCDEFGHIJKLMNOPQRSTUVWXYZabcdefghijklmnopqrstuvwxyz0123456789";
/// What a name may not hold.
const FOREIGN: &[u8] = b"-_./:@[`{ \t\r\0\x7F\x80\xC3\xFF";

/// Where no empty line parts two images they are one: more than 10,000 are left.
const MANY: usize = 11_000;

/// The lines of an image, without their ends.
type Lines = Vec<Vec<u8>>;

/// A term of good images, some of which are cut off.
pub fn good(random: &mut Random) -> Vec<u8> {
    let count = random.below(9);
    let images = (0..count).map(|_| good_image(random)).collect();
    parted(random, images)
}

/// Images of every kind.
pub fn mixed(random: &mut Random) -> Vec<u8> {
    let count = random.below(9) as usize;
    of_any_images(random, count)
}

pub fn many(random: &mut Random) -> Vec<u8> {
    of_any_images(random, MANY)
}

fn of_any_images(random: &mut Random, count: usize) -> Vec<u8> {
    let images = (0..count).map(|_| any_image(random)).collect();
    parted(random, images)
}

/// One with a change anywhere, seldom with two or three.
pub fn spoiled(random: &mut Random) -> Vec<u8> {
    let mut text = match random.below(2) {
        0 => good(random),
        _ => mixed(random),
    };
    for _ in 0..random.pick(&[1, 1, 1, 1, 2, 3]) {
        match random.below(16) {
            0..3 => edits::byte(random, &mut text, TELLING),
            3..6 => edits::one_more(random, &mut text, TELLING),
            6 => edits::remove(random, &mut text),
            7 => edits::double(random, &mut text),
            8 => edits::cut(random, &mut text),
            9..12 => edits::lines(random, &mut text),
            12 => text.make_ascii_lowercase(),
            13 => with_returns(&mut text),
            14 => text.insert(0, random.pick(TELLING)),
            _ => text.push(random.pick(TELLING)),
        }
    }
    text
}

/// Byte 13 before every byte 10.
fn with_returns(text: &mut Vec<u8>) {
    let lines: Vec<&[u8]> = text.split(|byte| *byte == b'\n').collect();
    *text = lines.join(&b"\r\n"[..]);
}

/// A few bytes in no order.
pub fn loose(random: &mut Random) -> Vec<u8> {
    let length = random.below(32);
    let bytes = random.pick(&[LOOSE, TELLING]);
    (0..length).map(|_| random.pick(bytes)).collect()
}

/// At each limit, on one side of it and on the other: entries, bytes on a line and in all; and lines longer than any good one.
pub fn at_limits(random: &mut Random) -> Vec<u8> {
    let mut images = vec![];
    for _ in 0..1 + random.below(3) {
        images.push(match random.below(4) {
            0 => long_line(random),
            1 => good_image(random),
            _ => limits(random),
        });
    }
    parted(random, images)
}

fn limits(random: &mut Random) -> Lines {
    let length = MOST_BYTES + random.pick(&[0, 0, 0, 0, 1, 2, 6_000]) - random.below(2) as usize;
    let count = MOST_ENTRIES + 1 - random.pick(&[0, 1, 1, 1, 2]);
    let width = random.pick(&[
        1,
        MOST_IN_LINE - 1,
        MOST_IN_LINE,
        MOST_IN_LINE,
        MOST_IN_LINE + 1,
    ]);
    let image = images::image(random.pick(&KINDS), length, random);
    let mut entries: Vec<u32> = vec![0, 1, 2];
    entries.resize_with(count, || random.below(length as u64 + 4) as u32);
    written(name(random), &entries, &image, width)
}

/// A line that goes on and on, in the place of any one.
fn long_line(random: &mut Random) -> Lines {
    let mut lines = good_image(random);
    let at = random.below(lines.len() as u64) as usize;
    let length = random.pick(&[35, 66, 67, 1_279, 1_284, 4_096, 65_536, 100_000]);
    let with = random.pick(b"0Aa-\t\0 N");
    lines[at].resize_with(length, || with);
    lines
}

/// Empty lines between images, mostly one; at times before them, behind them, or none where there should be one. In one term of four the
/// last byte 10 is left out.
fn parted(random: &mut Random, images: Vec<Lines>) -> Vec<u8> {
    let mut text = vec![];
    let mut empty = |text: &mut Vec<u8>, counts: &[usize]| {
        let count = random.pick(counts);
        text.resize(text.len() + count, b'\n');
    };
    empty(&mut text, &[0, 0, 0, 0, 0, 0, 1, 3]);
    for lines in images {
        for line in lines {
            text.extend(line);
            text.push(b'\n');
        }
        empty(&mut text, &[1, 1, 1, 1, 1, 1, 1, 1, 1, 1, 1, 1, 2, 2, 5, 0]);
    }
    for _ in 0..random.pick(&[0, 0, 1, 2]) {
        if text.last() == Some(&b'\n') {
            text.pop();
        }
    }
    text
}

fn any_image(random: &mut Random) -> Lines {
    match random.below(16) {
        0..6 => good_image(random),
        6 => empty_image(random),
        7 | 8 => bad_name(random),
        9 | 10 => bad_entries(random),
        11..14 => bad_bytes(random),
        14 => too_many_entries(random),
        _ => cut_off(random),
    }
}

fn name(random: &mut Random) -> Vec<u8> {
    let length = match random.below(8) {
        0 => LONGEST_NAME as u64,
        _ => 1 + random.below(LONGEST_NAME as u64),
    };
    (0..length).map(|_| random.pick(ALPHANUMERIC)).collect()
}

fn hex(bytes: &[u8]) -> Vec<u8> {
    let digits: String = bytes.iter().map(|byte| format!("{byte:02X}")).collect();
    digits.into_bytes()
}

fn entries_line(entries: &[u32]) -> Vec<u8> {
    let fields: Vec<String> = entries
        .iter()
        .map(|entry| format!("{:04X}", *entry as u16))
        .collect();
    match fields.is_empty() {
        true => b"-".to_vec(),
        false => fields.join("\t").into_bytes(),
    }
}

/// So many bytes on a line.
fn written(name: Vec<u8>, entries: &[u32], image: &[u8], width: usize) -> Lines {
    let mut lines = vec![[b"N\t", &name[..]].concat(), entries_line(entries)];
    lines.extend(image.chunks(width).map(hex));
    lines
}

fn width(random: &mut Random) -> usize {
    match random.below(4) {
        0 => 1,
        1 => MOST_IN_LINE,
        _ => 1 + random.below(MOST_IN_LINE as u64) as usize,
    }
}

fn good_image(random: &mut Random) -> Lines {
    let length = match random.below(64) {
        0 => random.below(600),
        1..8 => random.below(120),
        _ => random.below(24),
    };
    let image = images::image(random.pick(&KINDS), length as usize, random);
    let mut entries = images::entries(image.len(), random);
    if random.below(64) == 0 {
        let count = random.below(MOST_ENTRIES as u64 + 1) as usize;
        entries.resize_with(count, || random.below(length + 4) as u32);
    }
    let width = width(random);
    written(name(random), &entries, &image, width)
}

/// An `N` line alone, or entries and no bytes.
fn empty_image(random: &mut Random) -> Lines {
    let entries = images::entries(0, random);
    let mut lines = written(name(random), &entries, &[], 1);
    if random.below(2) == 0 {
        lines.pop();
    }
    lines
}

/// The last instruction lacks one byte or two.
fn cut_off(random: &mut Random) -> Lines {
    let mut image = vec![0x64; random.below(40) as usize];
    let missing: &[u8] = random.pick(&[&[0x68, 0x00], &[0x68], &[0x81], &[0x21, 0x00]]);
    image.extend(missing);
    let entries = [random.below(image.len() as u64) as u32];
    let width = width(random);
    written(name(random), &entries, &image, width)
}

fn bad_name(random: &mut Random) -> Lines {
    let mut lines = good_image(random);
    let mut name = name(random);
    lines[0] = match random.below(16) {
        0 => b"N".to_vec(),
        1 => b"N\t".to_vec(),
        2 => name,
        3 => [b"N", &name[..]].concat(),
        4 => [b"N ", &name[..]].concat(),
        5 => [b"\tN\t", &name[..]].concat(),
        6 => [b"n\t", &name[..]].concat(),
        7 => [b"NN\t", &name[..]].concat(),
        8 => [b"N\t\t", &name[..]].concat(),
        9 => [b"N\t", &name[..], b"\r"].concat(),
        10 => [b"N\t", &name[..], b"\t"].concat(),
        11 => [b"R\t", &name[..]].concat(),
        12 => {
            name.resize(LONGEST_NAME + 1 + random.below(3) as usize, b'x');
            [b"N\t", &name[..]].concat()
        }
        13 => lines.remove(1),
        _ => {
            let at = random.below(name.len() as u64) as usize;
            name[at] = random.pick(FOREIGN);
            [b"N\t", &name[..]].concat()
        }
    };
    lines
}

fn bad_entries(random: &mut Random) -> Lines {
    let mut lines = good_image(random);
    let line = &mut lines[1];
    match random.below(12) {
        0 => line.push(b'\t'),
        1 => line.insert(0, b'\t'),
        2 => line.push(b'\r'),
        3 => line.push(b'0'),
        4 => *line = b"--".to_vec(),
        5 => *line = b"-\t0000".to_vec(),
        6 => *line = b"0000\t-".to_vec(),
        7 => *line = b"0000 0001".to_vec(),
        8 => *line = b"00af".to_vec(),
        9 => drop(lines.remove(1)),
        10 => *line = b"N\tname".to_vec(),
        _ => {
            line.resize(line.len().max(4), b'0');
            let at = random.below(line.len() as u64) as usize;
            line[at] = random.pick(b"/:@Gag\0 \r\xFF");
        }
    }
    lines
}

fn bad_bytes(random: &mut Random) -> Lines {
    let mut lines = good_image(random);
    let bad: Vec<u8> = match random.below(12) {
        0 => b"A0A".to_vec(),
        1 => b"a0".to_vec(),
        2 => b"A0\r".to_vec(),
        3 => b"A0 A0".to_vec(),
        4 => b"A0\tA0".to_vec(),
        5 => b"-".to_vec(),
        6 => b"\r".to_vec(),
        7 => b"\0".to_vec(),
        8 => hex(&[0xA0; MOST_IN_LINE + 1]),
        9 => vec![b'0'; 2 * MOST_IN_LINE + 1],
        10 => b"N\tname".to_vec(),
        _ => vec![b'0', random.pick(b"/:@Gag\0 \r\xFF")],
    };
    let at = 2 + random.below(lines.len() as u64 - 1) as usize;
    lines.insert(at, bad);
    lines
}

fn too_many_entries(random: &mut Random) -> Lines {
    let mut lines = good_image(random);
    let count = MOST_ENTRIES + random.pick(&[0, 1, 1, 2, 60]);
    let entries: Vec<u32> = (0..count).map(|_| random.below(30) as u32).collect();
    lines[1] = entries_line(&entries);
    lines
}
