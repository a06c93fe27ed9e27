//! Words and images of the program for game files: each option, each kind of entry, and each message.

use super::stored::{self, Case};
use compare::paper::dis::MOST;
use compare::paper::tracer::LONGEST;

/// A branch below 0, one to 5, and Ret from 4 to 6: each option changes the listing of a run from 0.
const SHORT: &str = "80FD8001A0A0A0";
/// An instruction of three bytes.
const THREE: &str = "68";
const RET: &str = "A0";

/// The sample that the program itself is run on.
const GAME: &[u8] = include_bytes!("../../../../crates/dis/data/game");

/// What is listed.
const LISTED: [(&str, &[&str], &str); 27] = [
    ("dis: no image and no words", &[], ""),
    ("dis: no image", &["0", "--pin", "0"], ""),
    ("dis: one entry", &["0"], SHORT),
    ("dis: wrapping", &["0", "--wrapping"], SHORT),
    ("dis: no arrivals", &["0", "--no-arrivals"], SHORT),
    ("dis: a pin", &["0", "--pin", "5"], SHORT),
    (
        "dis: all options",
        &["0", "--wrapping", "--no-arrivals", "--pin", "5"],
        SHORT,
    ),
    (
        "dis: all options before the entry",
        &["--pin", "5", "--no-arrivals", "--wrapping", "0"],
        SHORT,
    ),
    (
        "dis: all options among entries",
        &["6", "--pin", "5", "0", "--wrapping", "5", "--no-arrivals"],
        SHORT,
    ),
    (
        "dis: options twice",
        &[
            "--wrapping",
            "0",
            "--wrapping",
            "--no-arrivals",
            "--no-arrivals",
        ],
        SHORT,
    ),
    ("dis: no entry, wrapping", &["--wrapping"], SHORT),
    ("dis: no entry, no arrivals", &["--no-arrivals"], SHORT),
    ("dis: two pins", &["0", "--pin", "5", "--pin", "2"], SHORT),
    (
        "dis: a pin twice",
        &["0", "--pin", "5", "--pin", "05"],
        SHORT,
    ),
    ("dis: an entry twice", &["4", "0004", "04"], SHORT),
    ("dis: an entry that is a pin", &["0", "--pin", "0"], SHORT),
    ("dis: a pin that is an entry", &["--pin", "0", "0"], SHORT),
    (
        "dis: one of two entries is a pin",
        &["0", "4", "--pin", "4"],
        SHORT,
    ),
    ("dis: a pin outside the image", &["0", "--pin", "7"], SHORT),
    ("dis: the last byte", &["6"], SHORT),
    ("dis: an entry outside the image", &["7"], SHORT),
    ("dis: an entry far outside the image", &["FFFF"], SHORT),
    (
        "dis: entries outside the image and inside",
        &["ffff", "4", "7"],
        SHORT,
    ),
    (
        "dis: a pin keeps off what would be cut off",
        &["0", "--pin", "0"],
        THREE,
    ),
    ("dis: B8 0D 21, entries 0 and 2", &["0", "2"], "B80D210000"),
    ("dis: B8 0D 21, entries 2 and 0", &["2", "0"], "B80D210000"),
    (
        "dis: B8 0D 21, with a pin on B8",
        &["0", "2", "--pin", "0"],
        "B80D210000",
    ),
];

/// Words that are none, and a file's name alone before them.
const NONE: [&str; 23] = [
    "g",
    "G",
    "/",
    ":",
    "@",
    "`",
    "00g",
    "00000",
    "12345",
    "0x0",
    "+0",
    "-0",
    "0 ",
    " 0",
    "0,0",
    "\u{FF}",
    "-",
    "--",
    "--pins",
    "--pin=0",
    "--wrappin",
    "--no-arrivals0",
    "--wrapping ",
];

/// What is not understood.
const BAD: [(&str, &[&str], &str); 15] = [
    ("dis: 13: an empty word alone", &[""], SHORT),
    ("dis: 13: after an entry", &["0", "x"], SHORT),
    ("dis: 13: the first of two decides", &["0", "x", "y"], SHORT),
    ("dis: 13: an empty word at the end", &["0", ""], SHORT),
    ("dis: 13: an empty word between", &["0", "", "4"], SHORT),
    ("dis: 13: a pin at the end", &["0", "--pin"], SHORT),
    ("dis: 13: a pin alone", &["--pin"], SHORT),
    (
        "dis: 13: a pin before wrapping",
        &["--pin", "--wrapping"],
        SHORT,
    ),
    (
        "dis: 13: a pin before no arrivals",
        &["--pin", "--no-arrivals", "0"],
        SHORT,
    ),
    (
        "dis: 13: a pin before a pin",
        &["--pin", "--pin", "0"],
        SHORT,
    ),
    ("dis: 13: a pin of no digit", &["0", "--pin", "x"], SHORT),
    (
        "dis: 13: a pin of five digits",
        &["0", "--pin", "00000"],
        SHORT,
    ),
    ("dis: 13: an empty pin", &["0", "--pin", ""], SHORT),
    ("dis: 13: an unknown option", &["0", "--arrivals"], SHORT),
    ("dis: 13 before 5", &["0", "x"], THREE),
];

/// What is cut off.
const CUT: [(&str, &[&str], &str); 6] = [
    ("dis: 5: two bytes are missing", &["0"], "68"),
    ("dis: 5: one byte is missing", &["0"], "6800"),
    ("dis: 5: one of two bytes is missing", &["3"], "A0A0A001"),
    ("dis: 5: wrapping", &["0", "--wrapping"], "68"),
    ("dis: 5: without an entry", &[], "0001"),
    ("dis: 5: with a pin beside it", &["0", "--pin", "1"], "6800"),
];

pub fn cases() -> Vec<Case> {
    let short = LISTED.iter().chain(&BAD).chain(&CUT);
    let short = short.map(|(about, words, image)| Case::of_words(about, words, image));
    let none = NONE.iter().map(|word| {
        let about = format!("dis: 13: {}", stored::stored(word));
        Case::of_words(&about, &[word], SHORT)
    });
    short
        .chain(none)
        .chain(unended())
        .chain(entries())
        .chain(games())
        .chain(most())
        .chain(longest())
        .collect()
}

/// Words as no command line has them: the last without its byte 0.
fn unended() -> [Case; 3] {
    let words =
        |about: &str, words: &str| Case::of_words(about, &[], SHORT).and_part('G', 1, words);
    [
        words("dis: a last word without byte 0", "0\0--pin\x005"),
        words("dis: one word without byte 0", "0"),
        words("dis: 13: a last word without byte 0", "0\0--pin"),
    ]
}

/// One to four digits of either case.
fn entries() -> [Case; 3] {
    let rets = |about: &str| Case::of_words(about, &[], "").and_part('B', 0x200, RET);
    let all = [
        "9", "a", "B", "1c", "1D", "e0", "F0", "010", "0aB", "1Bc", "0011", "00fA", "01eF",
    ];
    [
        rets("dis: entries of one to four digits of either case").and_words(1, &all),
        rets("dis: pins of the same").and_words(1, &all).and_words(
            1,
            &["--pin", "A", "--pin", "0b", "--pin", "0aB", "--pin", "01Ef"],
        ),
        rets("dis: every digit").and_words(1, &["0123", "4567", "89ab", "cdef", "89AB", "CDEF"]),
    ]
}

/// Without an entry, those of a game.
fn games() -> [Case; 7] {
    let rets = |about: &str| Case::of_words(about, &[], "").and_part('B', 0x132, RET);
    let digits: String = GAME.iter().map(|byte| format!("{byte:02X}")).collect();
    let game = |about: &str, words: &[&str]| Case::of_words(about, words, &digits);
    [
        rets("dis: no words"),
        rets("dis: no entry, and a pin on one").and_words(1, &["--pin", "4B", "--pin", "131"]),
        Case::of_words("dis: no words, and 0130 outside", &[], "").and_part('B', 0x130, RET),
        game("dis: the sample", &[]),
        game(
            "dis: the sample, all options",
            &["--pin", "160", "--wrapping", "--no-arrivals"],
        ),
        game("dis: the sample from one entry", &["130"]),
        game(
            "dis: 13: a pin of no digit, of the sample",
            &["0", "--pin", "x"],
        ),
    ]
}

/// Both sides of the limits on entries and pins.
fn most() -> [Case; 7] {
    let words = |about: &str, entries: usize, pins: usize| {
        let ret = Case::of_words(about, &[], "A0A0A0");
        let entries = ret.and_words(entries, &["2"]);
        entries.and_words(pins, &["--pin", "1"])
    };
    [
        words("dis: 256 entries", MOST, 1),
        words("dis: 13: the 257th entry", MOST, 1).and_words(1, &["0"]),
        words("dis: 256 pins", 1, MOST),
        words("dis: 13: the 257th pin", 1, MOST).and_words(1, &["--pin", "0"]),
        words("dis: 256 entries and 256 pins", MOST, MOST),
        words("dis: options after 256 of both", MOST, MOST)
            .and_words(1, &["--wrapping", "--no-arrivals"]),
        words("dis: 13: a pin at the end after 256 of both", MOST, MOST).and_words(1, &["--pin"]),
    ]
}

/// Images of 65,536 bytes and one more. No listing is longer than 5,046,272 bytes; that of 44 repeated in wrapping mode, which is the
/// largest known, lacks 70 of them.
fn longest() -> Vec<Case> {
    let image = |about: &str, times: usize, byte: &str, end: &str, words: &[&str]| {
        let image = Case::of_words(about, &[], "").and_part('B', times, byte);
        image.and_part('B', 1, end).and_words(1, words)
    };
    let repeated = |about: &str, words: &[&str]| image(about, LONGEST - 2, "44", "5494", words);
    let zeros = |about: &str, end: &str, words: &[&str]| {
        image(about, LONGEST - end.len() / 2, "00", end, words)
    };
    vec![
        zeros("dis: 65,536 bytes", "A0", &["ffff"]),
        zeros("dis: 65,536 bytes of Nop", "", &["0"]),
        zeros(
            "dis: 65,536 bytes of Nop, wrapping",
            "",
            &["8000", "--wrapping"],
        ),
        zeros(
            "dis: 65,536 bytes of Nop and a pin",
            "",
            &["8000", "--wrapping", "--pin", "C000"],
        ),
        zeros(
            "dis: over the end of memory",
            "0101",
            &["FFFE", "--pin", "3"],
        ),
        zeros(
            "dis: over the end of memory, wrapping",
            "0101",
            &["FFFE", "--pin", "3", "--wrapping"],
        ),
        zeros("dis: 5: at the end of memory", "68", &["FFFF"]),
        zeros(
            "dis: 5: at the end of memory, wrapping",
            "68",
            &["FFFF", "--wrapping"],
        ),
        zeros(
            "dis: 5: one byte is missing at the end of memory",
            "6800",
            &["fffe"],
        ),
        repeated("dis: 44 repeated", &["0", "1", "2"]),
        repeated(
            "dis: 44 repeated, without arrivals",
            &["0", "1", "2", "--no-arrivals"],
        ),
        repeated(
            "dis: 44 repeated, wrapping: the largest listing known",
            &["0", "1", "2", "--wrapping"],
        ),
        image("dis: 1: 65,537 bytes", LONGEST + 1, "00", "", &["0"]),
        image("dis: 1: without an entry", LONGEST + 1, "A0", "", &[]),
        image("dis: 1 before 5", LONGEST + 1, THREE, "", &["0"]),
        image("dis: 13 before 1", LONGEST + 1, "00", "", &["0", "x"]),
    ]
}
