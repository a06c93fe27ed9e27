//! What no input of the listing program leads to: marks with waiting positions, images over 16,384 bytes,
//! and arrivals, chosen and shown without a choice.

use super::stored::Asked::{self, Unchosen};
use super::stored::Case;
use compare::paper::listing::Arrivals;

const CHOSEN: Asked = Asked::Listing(Arrivals::Chosen);
const DECLINED: Asked = Asked::Listing(Arrivals::Declined);

const CASES: [(&str, Asked, &str, &str); 22] = [
    ("no image", DECLINED, "", ""),
    ("no image, arrivals chosen", CHOSEN, "", "02"),
    (
        "a waiting position that nothing covers is data",
        DECLINED,
        "800401020304A0",
        "02000100000001",
    ),
    ("a waiting position alone", DECLINED, "A0", "01"),
    ("a waiting zero", DECLINED, "00", "01"),
    (
        "a waiting position that is covered",
        DECLINED,
        "220102A0",
        "02010002",
    ),
    (
        "no label where nothing is traced",
        DECLINED,
        "0100A0",
        "020001",
    ),
    ("marks past the image", DECLINED, "A0", "020901"),
    (
        "a 3 without B8 0D names its target",
        DECLINED,
        "210000",
        "030000",
    ),
    (
        "a 2 after a traced B8 0D names none",
        DECLINED,
        "B80D210000",
        "0200020000",
    ),
    (
        "document 01's example with arrivals",
        CHOSEN,
        "010200416480F9A0",
        "0200000002020002",
    ),
    (
        "a label, overlaps and arrivals at one position",
        CHOSEN,
        "80FF00A0",
        "02020202",
    ),
    ("two arrivals", CHOSEN, "800480020000A0", "02000200020202"),
    (
        "one that arrives by both its targets",
        CHOSEN,
        "8000A0",
        "020002",
    ),
    (
        "no arrivals from a 3, some from a 2",
        CHOSEN,
        "B80D210000210000",
        "0200030000020000",
    ),
    (
        "a waiting position has no arrivals shown",
        CHOSEN,
        "8000A0",
        "020001",
    ),
    ("no image, without a choice", Unchosen, "", ""),
    (
        "document 01's example without a choice",
        Unchosen,
        "010200416480F9A0",
        "0200000002020002",
    ),
    (
        "two arrivals, without a choice",
        Unchosen,
        "800480020000A0",
        "02000200020202",
    ),
    (
        "one that arrives by both its targets, without a choice",
        Unchosen,
        "8000A0",
        "020002",
    ),
    (
        "no arrivals from a 3, some from a 2, without a choice",
        Unchosen,
        "B80D210000210000",
        "0200030000020000",
    ),
    (
        "nothing arrives, without a choice",
        Unchosen,
        "A0A0",
        "0202",
    ),
];

/// Code at the end of memory.
const HIGH: [(&str, &str, &str); 6] = [
    ("a target of 65,535", "01FF", "0200"),
    ("a target of 65,536", "0100", "0200"),
    ("the highest target", "017F", "0200"),
    ("a conditional branch past memory", "807F", "0200"),
    ("a jump at the end of memory has page 0", "2802", "0200"),
    ("two Ret at the end of memory", "A0A0", "0202"),
];

/// Arrivals at the end of memory: a Nop, a Br back to it, and 65,533 bytes of data before.
fn last(asked: Asked) -> Case {
    let zeros = Case::of_marks("arrivals at the end of memory", asked, "", "");
    let image = zeros.and_part('B', 65_533, "00").and_part('B', 1, "0001FD");
    image.and_part('M', 65_533, "00").and_part('M', 1, "020200")
}

pub fn cases() -> Vec<Case> {
    let short = CASES.iter();
    let short =
        short.map(|(about, asked, image, marks)| Case::of_marks(about, *asked, image, marks));
    let high = HIGH.iter().map(|(about, code, marks)| {
        let zeros = Case::of_marks(about, DECLINED, "", "").and_part('B', 65_534, "00");
        let image = zeros.and_part('B', 1, code).and_part('M', 65_534, "00");
        image.and_part('M', 1, marks)
    });
    let last = [CHOSEN, Unchosen].map(last);
    short.chain(high).chain(last).collect()
}
