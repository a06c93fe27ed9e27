//! Short images at each edge of the listing.

use super::stored::Case;

const CASES: [(&str, &str); 52] = [
    // Overlaps.
    (
        "edge 13: overlaps at 0 are 2, at 2 none",
        "0000\t0002\n220100A0\n",
    ),
    ("one overlap on either side", "0000\t0001\n81A0A0\n"),
    ("two overlaps after", "0000\t0001\t0002\n22A064A0\n"),
    (
        "three overlaps, one before and two after",
        "0000\t0001\t0002\n4444444464A0A0\n",
    ),
    (
        "no overlap with an instruction of one byte",
        "0000\n0000A0\n",
    ),
    // Labels.
    ("a label and overlaps at one position", "0000\n80FF00A0\n"),
    ("a branch to its own next names it", "0000\n8000A0\n"),
    ("next is not named after a call", "0000\n0803A0A0\n"),
    ("a jump to itself", "0000\n01FE\n"),
    ("named twice", "0000\n800480020000A0\n"),
    ("an entry is not named", "0000\t0001\n00A0\n"),
    // Targets.
    ("edge 14: a target below 0", "0000\n0180\n"),
    ("the targets -1 and 0", "0000\t0003\n01FD0001FB\n"),
    ("a conditional branch below 0", "0000\n80FDA0\n"),
    ("a target at the end", "0000\n0100\n"),
    ("edge 6: a far branch to 8002", "0000\n110080\n"),
    ("edge 7: a far branch wraps to 0", "0000\n11FEFF\n"),
    ("a far branch to FFFF", "0000\n11FDFF\n"),
    ("a relative call to 8002 and to 0", "0000\n10008010FBFFA0\n"),
    ("a far jump to FFFF", "0000\n21FFFF\n"),
    ("a far call into the image", "0000\n20000400A0\n"),
    // The exception.
    ("edge 12: B8 0D 21 00 00, entry 0", "0000\nB80D210000\n"),
    ("edge 12: B8 0D 21 00 00, entry 2", "0002\nB80D210000\n"),
    (
        "B8 0D 21 00 00, entries 0 and 2",
        "0000\t0002\nB80D210000\n",
    ),
    (
        "B8 0D 21 00 00, entries 2 and 0",
        "0002\t0000\nB80D210000\n",
    ),
    ("a flash call's target stays data", "0000\nB80D210006A0A0\n"),
    (
        "B8 0D that is not traced is no exception",
        "0002\nB80D210005A0\n",
    ),
    ("B9 0D is no exception", "0000\nB90D210005A0\n"),
    (
        "B8 0D 21 whose target another jump names",
        "0000\n8005B80D210007A0A0\n",
    ),
    // Data.
    ("16 bytes of data", "\n0102030405060708090A0B0C0D0E0F10\n"),
    ("17 bytes of data", "\n0102030405060708090A0B0C0D0E0F1011\n"),
    (
        "33 bytes of data over two lines",
        "\n01020304050607\n08090A0B0C0D0E0F101112131415161718191A1B1C1D1E1F2021\n",
    ),
    ("one zero", "\n00\n"),
    ("17 zeros", "\n0000000000000000000000000000000000\n"),
    (
        "16 zeros, then a byte",
        "\n0000000000000000000000000000000001\n",
    ),
    (
        "a byte, then 31 zeros",
        "\n0100000000000000000000000000000000000000000000000000000000000000\n",
    ),
    (
        "15 zeros, a byte, a zero",
        "\n0000000000000000000000000000000100\n",
    ),
    (
        "data begins where code ends",
        "0000\n64A00102030405060708090A0B0C0D0E0F101112\n",
    ),
    ("data is cut by code", "0003\n010203A0040506\n"),
    ("zeros are cut by code", "0003\n000000A0000600\n"),
    (
        "17 bytes cut by code after the first",
        "0001\n00A00000000000000000000000000000000001\n",
    ),
    ("masked bytes print nothing", "0000\n220000A0\n"),
    ("an image without code", "FFFF\n0102\n"),
    // Cut-off instructions.
    ("one byte of two", "0000\n68\n"),
    ("edge 11: 68 00", "0000\n6800\n"),
    ("an entry at the last byte, cut off", "0000\t0001\nA001\n"),
    ("the fall through is cut off", "0000\n0022\n"),
    ("a branch goes to what is cut off", "0000\n8001A021\n"),
    ("a flash call cut off", "0000\nB80D2100\n"),
    ("a cut-off instruction that nothing reaches", "0000\nA021\n"),
    ("a cut-off instruction under another", "0000\n220021\n"),
    ("the last instruction ends with the image", "0000\n00\n"),
];

pub fn cases() -> Vec<Case> {
    let short = CASES.iter().map(|(about, text)| Case::new(about, text));
    short.chain(pages()).chain([every_first_byte()]).collect()
}

/// Jumps within a page, at its ends, and short branches past the longest image.
fn pages() -> [Case; 5] {
    let at = |about: &str, entry: &str, before: usize, code: &str| {
        let lines = Case::new(about, &format!("{entry}\n"));
        let zeros = "00".repeat(before % 32);
        lines
            .and(before / 32, &format!("{}\n", "00".repeat(32)))
            .and(1, &format!("{zeros}{code}\n"))
    };
    [
        at(
            "a jump whose next is the page's last byte",
            "0FFD",
            0x0FFD,
            "2FFFA0",
        ),
        at("a jump whose next is the next page", "0FFE", 0x0FFE, "2800"),
        at(
            "a call whose next is the next page",
            "0FFE",
            0x0FFE,
            "0801\nA0A0",
        ),
        at("a jump whose next is 4000", "3FFE", 0x3FFE, "3FFF"),
        at(
            "a short branch past the longest image",
            "3FFE",
            0x3FFE,
            "017F",
        ),
    ]
}

/// Each first byte with two bytes after it, and an entry at each.
fn every_first_byte() -> Case {
    let entries: Vec<String> = (0..256).map(|first| format!("{:04X}", first * 3)).collect();
    let instruction = |first: usize| [first, first * 7 + 3, first * 13 + 5].map(|byte| byte as u8);
    let bytes = (0..256).flat_map(instruction).chain([0xA0; 3]);
    let bytes: Vec<String> = bytes.map(|byte| format!("{byte:02X}")).collect();
    let lines: Vec<String> = bytes.chunks(30).map(|line| line.concat()).collect();
    let text = format!("{}\n{}\n", entries.join("\t"), lines.join("\n"));
    Case::new("every first byte, and an entry at each", &text)
}
