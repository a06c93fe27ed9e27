//! Inputs at each edge of what the listing program takes.

use super::stored::Case;

/// Texts that are read, to their ends.
const TAKEN: [(&str, &str); 14] = [
    ("empty input", ""),
    ("byte 10 alone", "\n"),
    ("line 1 alone, without byte 10", "0000"),
    ("line 1 alone", "0000\n"),
    ("two entries and no image", "0000\tFFFF\n"),
    ("document 01's example", "0000\n0102004164\n80F9A0\n"),
    (
        "the same without the last byte 10",
        "0000\n0102004164\n80F9A0",
    ),
    (
        "the same, one byte a line",
        "0000\n01\n02\n00\n41\n64\n80\nF9\nA0\n",
    ),
    ("no entries", "\nA0\n"),
    ("no entries, without the last byte 10", "\nA0"),
    (
        "every hex digit",
        "0123\t4567\t89AB\tCDEF\n0123456789ABCDEF\n",
    ),
    ("an entry three times", "0001\t0001\t0001\n00A0\n"),
    (
        "entries at the last byte, the end and past it",
        "0001\t0002\tFFFF\nA0A0\n",
    ),
    (
        "32 bytes on a line",
        "0000\nA0000000000000000000000000000000000000000000000000000000000000FF\n",
    ),
];

/// Texts that are refused with 13.
const REFUSED: [(&str, &str); 40] = [
    ("a blank line at the end", "0000\nA0\n\n"),
    ("a blank line between", "0000\nA0\n\nA0\n"),
    ("a blank line after no entries", "\n\n"),
    ("a blank line 2 before bytes", "\n\nA0"),
    ("CR at the end of line 1", "0000\r\nA0\r\n"),
    ("CR at the end of line 2", "0000\nA0\r\n"),
    ("CR alone", "\r"),
    ("lower case in line 1", "000a\nA0\n"),
    ("lower case in line 2", "0000\na0\n"),
    ("lower case at the end", "0000\nA0\nAf"),
    ("NUL alone", "\0"),
    ("NUL in line 1", "00\x000\nA0\n"),
    ("NUL in line 2", "0000\nA\0\n"),
    ("NUL after the last byte 10", "0000\nA0\n\0"),
    ("a space between entries", "0000 0001\nA0A0\n"),
    ("a space before an entry", " 0000\nA0\n"),
    ("a space for no entries", " \nA0\n"),
    ("a space between bytes", "0000\nA0 A0\n"),
    ("a space after bytes", "0000\nA0 \n"),
    ("a tab before the entries", "\t0000\nA0\n"),
    ("a tab after the entries", "0000\t\nA0\n"),
    ("two tabs between entries", "0000\t\t0001\nA0A0\n"),
    ("a tab for no entries", "\t\nA0\n"),
    ("a tab between bytes", "0000\nA0\tA0\n"),
    ("a tab before bytes", "0000\n\tA0\n"),
    ("an entry of three digits", "000\nA0\n"),
    ("an entry of five digits", "00000\nA0\n"),
    ("a second entry of three digits", "0000\t001\nA0\n"),
    ("two entries with nothing between", "00000001\nA0A0\n"),
    ("the byte before 0", "000/\nA0\n"),
    ("the byte after 9", "000:\nA0\n"),
    ("the byte before A", "0000\n@0\n"),
    ("the byte after F", "0000\nAG\n"),
    ("byte 255", "0000\n\u{FF}0\n"),
    ("a digit and a half", "0000\nA0A\n"),
    ("one digit", "0000\nA"),
    (
        "33 bytes on a line",
        "0000\nA000000000000000000000000000000000000000000000000000000000000000FF\n",
    ),
    ("two bad lines: the first decides", "0000\nA0\n0\nA0\nG\n"),
    ("both line 1 and line 2 bad", "0\n0\n"),
    (
        "13 before 5: the image before the bad line is cut off",
        "0000\n68\n0\n",
    ),
];

pub fn cases() -> Vec<Case> {
    let short = TAKEN.iter().chain(&REFUSED);
    let mut cases: Vec<Case> = short.map(|(about, text)| Case::new(about, text)).collect();
    cases.extend(limits());
    cases
}

/// Both sides of the limits on entries and bytes.
fn limits() -> [Case; 12] {
    let line = &format!("{}\n", "01".repeat(32));
    let lines = |about: &str, times| Case::new(about, "").and(1, "\n").and(times, line);
    let longest = |about: &str| {
        let entries = Case::new(about, "0000").and(255, "\tFFFF");
        entries.and(1, "\n").and(16_384, "00\n")
    };
    [
        Case::new("256 entries", "0000")
            .and(255, "\t0000")
            .and(1, "\nA0\n"),
        Case::new("257 entries", "0000")
            .and(256, "\t0000")
            .and(1, "\nA0\n"),
        Case::new("257 entries and no byte 10", "0000").and(256, "\tFFFF"),
        lines("the 16,384th byte", 512),
        lines("the 16,385th byte", 512).and(1, "01\n"),
        lines("the 16,385th byte without byte 10", 512).and(1, "01"),
        lines("the 16,385th byte, second in its line", 511)
            .and(1, &line[2..])
            .and(1, "0101\n"),
        lines("a bad line before the 16,385th byte", 511)
            .and(1, "0\n")
            .and(2, line),
        longest("the longest text, 50,432 bytes"),
        longest("one byte longer, by byte 10").and(1, "\n"),
        longest("one byte longer, by a digit").and(1, "0"),
        longest("longer by 3,000 lines").and(3_000, "00\n"),
    ]
}
