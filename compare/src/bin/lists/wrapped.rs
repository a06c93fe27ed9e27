//! Listings in wrapping mode: each branch that leaves memory, and what stands where it comes to.

use super::stored::{Asked, Case};
use compare::paper::Mode;
use compare::paper::listing::Arrivals;

const CHOSEN: Asked = Asked::Listing(Arrivals::Chosen);
const DECLINED: Asked = Asked::Listing(Arrivals::Declined);

/// Short images and their marks, in hex.
const SHORT: [(&str, Asked, &str, &str); 5] = [
    ("01 80 at 0, wrapping", DECLINED, "0180", "0200"),
    ("a branch to -1, wrapping", CHOSEN, "80FDA0", "020002"),
    (
        "the targets -1 and 0, wrapping",
        Asked::Unchosen,
        "01FD0001FB",
        "0200000200",
    ),
    (
        "document 01's example, wrapping",
        DECLINED,
        "010200416480F9A0",
        "0200000002020002",
    ),
    (
        "jumps and calls that are not short, wrapping",
        CHOSEN,
        "11FDFF10FBFF21FFFF28FF",
        "0200000200000200000200",
    ),
];

/// Images of 65,536 bytes: those from 0 on, a position and those from there on, all others 0; and the marks of both.
type High = (
    &'static str,
    Asked,
    [&'static str; 2],
    usize,
    [&'static str; 2],
);

const HIGH: [High; 8] = [
    (
        "01 80 at 0, and code at FF82",
        CHOSEN,
        ["0180", "0200"],
        0xFF82,
        ["A0", "02"],
    ),
    (
        "a branch to 65,536",
        CHOSEN,
        ["A0", "02"],
        0xFFFE,
        ["0100", "0200"],
    ),
    (
        "the highest target, 65,663",
        DECLINED,
        ["A0", "02"],
        0xFFFE,
        ["017F", "0200"],
    ),
    ("a Nop at FFFF", CHOSEN, ["A0", "02"], 0xFFFF, ["00", "02"]),
    (
        "a branch whose targets are both 65,536",
        Asked::Unchosen,
        ["A0", "02"],
        0xFFFE,
        ["8000", "0200"],
    ),
    (
        "a call at FFFE",
        CHOSEN,
        ["A00000A0", "02000002"],
        0xFFFE,
        ["0803", "0200"],
    ),
    (
        "a branch of three bytes at FFFD, and one below 0",
        CHOSEN,
        ["90FBA0", "020002"],
        0xFFFD,
        ["310002", "020000"],
    ),
    (
        "what stays in memory at its end",
        CHOSEN,
        ["A0", "02"],
        0xFFFD,
        ["0001FD", "020200"],
    ),
];

/// In wrapping mode; with code at the end of memory unwrapped too.
pub fn cases() -> Vec<Case> {
    let short = SHORT.iter().map(|(about, asked, image, marks)| {
        Case::of_marks(about, *asked, image, marks).in_mode(Mode::Wrapping)
    });
    let high = HIGH.iter().flat_map(|high| {
        let wrapping = format!("{}, wrapping", high.0);
        [
            of_high(high.0, high),
            of_high(&wrapping, high).in_mode(Mode::Wrapping),
        ]
    });
    short.chain(high).collect()
}

fn of_high(about: &str, high: &High) -> Case {
    let (_, asked, [low, low_marks], at, [code, marks]) = *high;
    let bytes = |hex: &str| hex.len() / 2;
    let between = at - bytes(low);
    let after = 65_536 - at - bytes(code);
    Case::of_marks(about, asked, "", "")
        .and_part('B', 1, low)
        .and_part('B', between, "00")
        .and_part('B', 1, code)
        .and_part('B', after, zeros(after))
        .and_part('M', 1, low_marks)
        .and_part('M', between, "00")
        .and_part('M', 1, marks)
        .and_part('M', after, zeros(after))
}

/// No part where there are none.
fn zeros(count: usize) -> &'static str {
    match count {
        0 => "",
        _ => "00",
    }
}
