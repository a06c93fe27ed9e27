//! Files of the program for game files, and the words after a file's name, by chance: good ones, spoiled ones, words in no order, and
//! those at the limits.

use crate::{edits, rings};
use compare::images::{self, KINDS};
use compare::paper::dis::MOST;
use compare::paper::{Mode, tracer};
use compare::random::Random;

/// The words of a command line; no word holds byte 0.
pub type Words = Vec<Vec<u8>>;
/// A file's bytes and the words after its name.
pub type Command = (Vec<u8>, Words);

const PIN: &[u8] = b"--pin";
const OPTIONS: [&[u8]; 2] = [b"--wrapping", b"--no-arrivals"];
/// Words that are none, or are none in most places.
const TELLING: [&[u8]; 24] = [
    PIN,
    b"",
    b"-",
    b"--",
    b"-p",
    b"--pin=0",
    b"--pins",
    b"--Pin",
    b"--wrappin",
    b"--wrappings",
    b"--no-arrival",
    b"--no-arrivals ",
    b"--arrivals",
    b"00000",
    b"10000",
    b"0x1",
    b"+1",
    b"-1",
    b" 1",
    b"1 ",
    b"g",
    b"x",
    b"\xFF",
    b"1,2",
];
/// Bytes that matter in a word, right ones and wrong ones, the neighbours of digits among them.
const BYTES: &[u8] = b"0123456789ABCDEFabcdef/:@G`g-+xp \t\n\x01\x7F\xFF";

/// A short image, and words that are understood.
pub fn good(random: &mut Random) -> Command {
    let length = match random.below(32) {
        0 => random.below(2_000),
        1..8 => random.below(200),
        _ => random.below(40),
    };
    let image = images::image(random.pick(&KINDS), length as usize, random);
    let entries = images::entries(image.len(), random);
    let words = understood(random, &image, &entries);
    (image, words)
}

/// An image around the entries of a game, and no others.
pub fn game(random: &mut Random) -> Command {
    let length =
        random.pick(&[0x04, 0x4B, 0x4C, 0x130, 0x131, 0x200]) + random.below(0x40) as usize;
    let image = images::image(random.pick(&KINDS), length, random);
    let words = understood(random, &image, &[]);
    (image, words)
}

/// An image that leads over the end of memory, at times a byte or two too long.
pub fn long(random: &mut Random) -> Command {
    let (mut image, entries) = rings::image(random);
    let words = understood(random, &image, &entries);
    if random.below(8) == 0 {
        image.resize(tracer::LONGEST + random.below(3) as usize, 0xA0);
    }
    (image, words)
}

/// One more or less than there may be of entries, of pins, or of both.
pub fn at_limits(random: &mut Random) -> Command {
    let (image, words) = good(random);
    let is_option = |word: &Vec<u8>| OPTIONS.contains(&&word[..]);
    let mut groups: Vec<Words> = words
        .into_iter()
        .filter(is_option)
        .map(|word| vec![word])
        .collect();
    let some = |random: &mut Random| match random.below(4) {
        0 => random.below(4) as usize,
        _ => MOST + 1 - random.pick(&[0, 1, 1, 1, 2]),
    };
    let (entries, pins) = (some(random), some(random));
    let position = |random: &mut Random| {
        let position = random.below(image.len() as u64 + 2) as u32;
        digits(random, position)
    };
    groups.extend((0..entries).map(|_| vec![position(random)]));
    groups.extend((0..pins).map(|_| vec![PIN.to_vec(), position(random)]));
    let words = shuffled(random, groups);
    (image, words)
}

/// One of these with a change, seldom with two.
pub fn spoiled(random: &mut Random) -> Command {
    let (image, mut words) = match random.below(16) {
        0 => at_limits(random),
        1 | 2 => game(random),
        _ => good(random),
    };
    for _ in 0..random.pick(&[1, 1, 1, 2]) {
        change(random, &mut words);
    }
    (image, words)
}

/// A few words in no order.
pub fn loose(random: &mut Random) -> Command {
    let (image, _) = good(random);
    let words = (0..random.below(5)).map(|_| match random.below(4) {
        0 => random.pick(&TELLING).to_vec(),
        1 => random.pick(&OPTIONS).to_vec(),
        2 => PIN.to_vec(),
        _ => (0..random.below(6)).map(|_| random.pick(BYTES)).collect(),
    });
    let words = words.collect();
    (image, words)
}

/// Entries, some pins and some options, in any order.
fn understood(random: &mut Random, image: &[u8], entries: &[u32]) -> Words {
    let mut groups: Vec<Words> = entries
        .iter()
        .map(|entry| vec![digits(random, *entry)])
        .collect();
    if random.below(2) == 0 {
        let mut pins = images::pins(image, entries, &noted(image, entries), random);
        pins.truncate(MOST);
        groups.extend(
            pins.iter()
                .map(|pin| vec![PIN.to_vec(), digits(random, *pin)]),
        );
    }
    for option in OPTIONS {
        let times = random.pick(&[0, 0, 0, 1, 1, 2]);
        groups.extend((0..times).map(|_| vec![option.to_vec()]));
    }
    shuffled(random, groups)
}

/// What a run comes to without pins.
fn noted(image: &[u8], entries: &[u32]) -> Vec<u32> {
    let (mut marks, mut order) = (vec![0; image.len()], vec![0; image.len()]);
    let limit = image.len() as u32;
    tracer::run(
        Mode::Unwrapped,
        image,
        &mut marks,
        &mut order,
        entries,
        &[],
        limit,
    );
    order.truncate(tracer::traced(image, &marks));
    order
}

/// A number's lowest four digits, in either case and with zeros before them or without.
fn digits(random: &mut Random, number: u32) -> Vec<u8> {
    let width = 1 + random.below(4) as usize;
    let text = match random.below(2) {
        0 => format!("{:0width$x}", number as u16),
        _ => format!("{:0width$X}", number as u16),
    };
    let mut digits = text.into_bytes();
    if random.below(4) == 0 {
        let at = random.below(digits.len() as u64) as usize;
        digits[..at].make_ascii_lowercase();
        digits[at..].make_ascii_uppercase();
    }
    digits
}

fn shuffled(random: &mut Random, mut groups: Vec<Words>) -> Words {
    for last in (1..groups.len()).rev() {
        groups.swap(last, random.below(last as u64 + 1) as usize);
    }
    groups.concat()
}

fn change(random: &mut Random, words: &mut Words) {
    let place = random.below(words.len() as u64 + 1) as usize;
    if place == words.len() {
        words.push(random.pick(&TELLING).to_vec());
        return;
    }
    let word = &mut words[place];
    match random.below(12) {
        0 => *word = random.pick(&TELLING).to_vec(),
        1 => edits::byte(random, word, BYTES),
        2 | 3 => word.insert(
            random.below(word.len() as u64 + 1) as usize,
            random.pick(BYTES),
        ),
        4 => edits::remove(random, word),
        5 => edits::double(random, word),
        6 => word.make_ascii_uppercase(),
        7 => drop(words.remove(place)),
        8 => words.insert(place, words[place].clone()),
        9 => words.swap(place, 0),
        10 => words.insert(place, PIN.to_vec()),
        _ => words.insert(place, random.pick(&TELLING).to_vec()),
    }
}
