//! Terms with one image that is malformed, each in its own way, and a good one behind it.

use super::stored::Case;

/// What stands in the place of the `N` line.
const NAMES: [(&str, &str); 27] = [
    ("an N alone", "N"),
    ("an N and a tab", "N\t"),
    ("no tab", "Na"),
    ("no N", "a"),
    ("a tab and a name", "\ta"),
    ("two tabs", "N\t\ta"),
    ("a tab behind the name", "N\ta\t"),
    ("a second name", "N\ta\tb"),
    ("a space for the tab", "N a"),
    ("a space before N", " N\ta"),
    ("a space in the name", "N\ta b"),
    ("a space behind the name", "N\ta "),
    ("a lower-case N", "n\ta"),
    ("another letter", "M\ta"),
    ("two letters", "NN\ta"),
    ("a dash for a name", "N\t-"),
    ("a dash in the name", "N\ta-b"),
    ("a point in the name", "N\ta.b"),
    ("a name of 33", "N\tABCDEFGHIJKLMNOPQRSTUVWXYZ0123456"),
    ("CR behind the name", "N\ta\r"),
    ("CR alone", "\r"),
    ("NUL in the name", "N\ta\0b"),
    ("byte 255 in the name", "N\ta\u{FF}"),
    ("the bytes around digits", "N\ta/"),
    ("the bytes around upper-case letters", "N\ta@"),
    ("the bytes around lower-case letters", "N\ta`"),
    ("entries and no N line", "0000"),
];

/// What stands in the place of the line of entries, before good bytes.
const ENTRIES: [(&str, &str); 21] = [
    ("bytes and no line of entries", "A0A0A0"),
    ("two dashes", "--"),
    ("a dash and a tab", "-\t"),
    ("a dash and an entry", "-\t0000"),
    ("an entry and a dash", "0000\t-"),
    ("a space for no entries", " "),
    ("a tab for no entries", "\t"),
    ("a tab before the entries", "\t0000"),
    ("a tab after the entries", "0000\t"),
    ("two tabs between entries", "0000\t\t0001"),
    ("a space between entries", "0000 0001"),
    ("two entries with nothing between", "00000001"),
    ("an entry of three digits", "000"),
    ("an entry of five digits", "00000"),
    ("lower case in an entry", "000a"),
    ("the byte before 0", "000/"),
    ("the byte after F", "000G"),
    ("CR behind the entries", "0000\r"),
    ("CR behind the dash", "-\r"),
    ("NUL in the entries", "00\x000"),
    ("an N line for the entries", "N\tb"),
];

/// What stands among good lines of bytes.
const BYTES: [(&str, &str); 18] = [
    ("a digit and a half", "A0A"),
    ("one digit", "A"),
    ("lower case in a byte", "a0"),
    ("a dash among bytes", "-"),
    ("a space between bytes", "A0 A0"),
    ("a space behind bytes", "A0 "),
    ("a space alone", " "),
    ("a tab between bytes", "A0\tA0"),
    ("a tab alone", "\t"),
    ("CR behind bytes", "A0\r"),
    ("CR on a line that is empty else", "\r"),
    ("NUL among bytes", "A\0"),
    ("NUL on a line that is empty else", "\0"),
    ("byte 255", "\u{FF}0"),
    ("the byte after 9", ":0"),
    ("the byte before A", "@0"),
    (
        "33 bytes on a line",
        "A00000000000000000000000000000000000000000000000000000000000000000",
    ),
    ("no empty line before the next N line", "N\tb"),
];

/// What follows: the sums show that nothing of the bad image is in them.
const GOOD: &str = "N\tz\n0000\n01FE41\n";
const TOLD: &str = "z\t3\t1\t2\t1\t0\t1\nT\t3\t1\t2\t1\t0\t1\t1\t1\n";

pub fn cases() -> Vec<Case> {
    let names = NAMES.iter().map(|(about, line)| {
        let text = format!("{line}\n0000\nA0\n\n{GOOD}");
        Case::told(about, &text, &format!("-\tR\t13\n{TOLD}"))
    });
    let entries = ENTRIES.iter().map(|(about, line)| {
        let text = format!("N\ta\n{line}\nA0A0\n\n{GOOD}");
        Case::told(about, &text, &format!("a\tR\t13\n{TOLD}"))
    });
    let bytes = BYTES.iter().map(|(about, line)| {
        let text = format!("N\ta\n0000\nA0\n{line}\nA0\n\n{GOOD}");
        Case::told(about, &text, &format!("a\tR\t13\n{TOLD}"))
    });
    let ends = ENDS
        .iter()
        .map(|(about, text, output)| Case::told(about, text, output));
    names.chain(entries).chain(bytes).chain(ends).collect()
}

/// What is bad at the end of the text, and what a bad line does to those around it.
const ENDS: [(&str, &str, &str); 16] = [
    (
        "a bad N line at the end",
        "N\t",
        "-\tR\t13\nT\t0\t0\t0\t0\t0\t0\t0\t1\n",
    ),
    (
        "one byte of text",
        "N",
        "-\tR\t13\nT\t0\t0\t0\t0\t0\t0\t0\t1\n",
    ),
    ("NUL alone", "\0", "-\tR\t13\nT\t0\t0\t0\t0\t0\t0\t0\t1\n"),
    (
        "a bad line of entries at the end",
        "N\ta\n000",
        "a\tR\t13\nT\t0\t0\t0\t0\t0\t0\t0\t1\n",
    ),
    (
        "half a byte at the end",
        "N\ta\n0000\nA",
        "a\tR\t13\nT\t0\t0\t0\t0\t0\t0\t0\t1\n",
    ),
    (
        "NUL after the last byte 10",
        "N\ta\n0000\nA0\n\0",
        "a\tR\t13\nT\t0\t0\t0\t0\t0\t0\t0\t1\n",
    ),
    (
        "13 before 5: the image before the bad line is cut off",
        "N\ta\n0000\n68\n0\n",
        "a\tR\t13\nT\t0\t0\t0\t0\t0\t0\t0\t1\n",
    ),
    (
        "13 before 5: the image with the lines behind it is whole",
        "N\ta\n0000\n68\n0\n0000\n",
        "a\tR\t13\nT\t0\t0\t0\t0\t0\t0\t0\t1\n",
    ),
    (
        "two bad lines are one refusal",
        "N\ta\n0\n0\n",
        "a\tR\t13\nT\t0\t0\t0\t0\t0\t0\t0\t1\n",
    ),
    (
        "a bad N line and bad lines are one refusal",
        "N\n0\n0\n\nx\ny\n",
        "-\tR\t13\n-\tR\t13\nT\t0\t0\t0\t0\t0\t0\t0\t2\n",
    ),
    (
        "an N line behind a bad line is skipped",
        "N\ta\n0\nN\tb\n0000\nA0\n\nN\tc\n",
        "a\tR\t13\nc\t0\t0\t0\t0\t0\t0\nT\t0\t0\t0\t0\t0\t0\t1\t1\n",
    ),
    (
        "an N line behind a bad N line is skipped",
        "N\t-\nN\tb\n0000\nA0\n",
        "-\tR\t13\nT\t0\t0\t0\t0\t0\t0\t0\t1\n",
    ),
    (
        "two N lines",
        "N\ta\nN\tb\n-\nA0\n",
        "a\tR\t13\nT\t0\t0\t0\t0\t0\t0\t0\t1\n",
    ),
    (
        "an empty line before the bytes ends the image",
        "N\ta\n0000\n\nA0\n",
        "a\t0\t0\t0\t0\t0\t0\n-\tR\t13\nT\t0\t0\t0\t0\t0\t0\t1\t1\n",
    ),
    (
        "an empty line for no entries ends the image",
        "N\ta\n\nA0\n",
        "a\t0\t0\t0\t0\t0\t0\n-\tR\t13\nT\t0\t0\t0\t0\t0\t0\t1\t1\n",
    ),
    (
        "CR at every line's end",
        "N\ta\r\n-\r\nA0\r\n\r\nN\tb\r\n-\r\nA0\r\n",
        "-\tR\t13\nT\t0\t0\t0\t0\t0\t0\t0\t1\n",
    ),
];
