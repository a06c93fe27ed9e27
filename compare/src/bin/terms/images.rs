//! Terms of good images, each figure at its edges, and images that the end cuts off.

use super::stored::Case;

const CASES: [(&str, &str, &str); 40] = [
    ("no text", "", "T\t0\t0\t0\t0\t0\t0\t0\t0\n"),
    (
        "document 01's example",
        "N\tSample\n0000\n0102004164\n80F9A0\n",
        "Sample\t8\t4\t6\t2\t0\t2\nT\t8\t4\t6\t2\t0\t2\t1\t0\n",
    ),
    (
        "the same without the last byte 10",
        "N\tSample\n0000\n0102004164\n80F9A0",
        "Sample\t8\t4\t6\t2\t0\t2\nT\t8\t4\t6\t2\t0\t2\t1\t0\n",
    ),
    (
        "the same, one byte a line",
        "N\tSample\n0000\n01\n02\n00\n41\n64\n80\nF9\nA0\n",
        "Sample\t8\t4\t6\t2\t0\t2\nT\t8\t4\t6\t2\t0\t2\t1\t0\n",
    ),
    (
        "an N line alone",
        "N\ta\n",
        "a\t0\t0\t0\t0\t0\t0\nT\t0\t0\t0\t0\t0\t0\t1\t0\n",
    ),
    (
        "an N line alone, without byte 10",
        "N\ta",
        "a\t0\t0\t0\t0\t0\t0\nT\t0\t0\t0\t0\t0\t0\t1\t0\n",
    ),
    (
        "no entries and no bytes",
        "N\ta\n-\n",
        "a\t0\t0\t0\t0\t0\t0\nT\t0\t0\t0\t0\t0\t0\t1\t0\n",
    ),
    (
        "no entries and no bytes, without the last byte 10",
        "N\ta\n-",
        "a\t0\t0\t0\t0\t0\t0\nT\t0\t0\t0\t0\t0\t0\t1\t0\n",
    ),
    (
        "entries and no bytes",
        "N\ta\n0000\tFFFF",
        "a\t0\t0\t0\t0\t0\t0\nT\t0\t0\t0\t0\t0\t0\t1\t0\n",
    ),
    (
        "no entries: all is data",
        "N\ta\n-\nA0A0\n",
        "a\t2\t0\t0\t2\t0\t0\nT\t2\t0\t0\t2\t0\t0\t1\t0\n",
    ),
    (
        "entries outside alone: all is data",
        "N\ta\n0002\tFFFF\nA0A0\n",
        "a\t2\t0\t0\t2\t0\t0\nT\t2\t0\t0\t2\t0\t0\t1\t0\n",
    ),
    (
        "an entry three times",
        "N\ta\n0001\t0001\t0001\n00A0\n",
        "a\t2\t1\t1\t1\t0\t0\nT\t2\t1\t1\t1\t0\t0\t1\t0\n",
    ),
    (
        "one instruction",
        "N\ta\n0000\nA0\n",
        "a\t1\t1\t1\t0\t0\t0\nT\t1\t1\t1\t0\t0\t0\t1\t0\n",
    ),
    (
        "a name of 32",
        "N\tABCDEFGHIJKLMNOPQRSTUVWXYZ012345\n-\n",
        "ABCDEFGHIJKLMNOPQRSTUVWXYZ012345\t0\t0\t0\t0\t0\t0\nT\t0\t0\t0\t0\t0\t0\t1\t0\n",
    ),
    (
        "names at the ends of letters and digits",
        "N\tAZ\n\nN\taz\n\nN\t09\n",
        "AZ\t0\t0\t0\t0\t0\t0\naz\t0\t0\t0\t0\t0\t0\n09\t0\t0\t0\t0\t0\t0\nT\t0\t0\t0\t0\t0\t0\t3\t0\n",
    ),
    (
        "names that are letters of lines",
        "N\tN\n\nN\tR\n\nN\tT\n",
        "N\t0\t0\t0\t0\t0\t0\nR\t0\t0\t0\t0\t0\t0\nT\t0\t0\t0\t0\t0\t0\nT\t0\t0\t0\t0\t0\t0\t3\t0\n",
    ),
    (
        "one name twice",
        "N\ta\n0000\nA0\n\nN\ta\n0000\nA0\n",
        "a\t1\t1\t1\t0\t0\t0\na\t1\t1\t1\t0\t0\t0\nT\t2\t2\t2\t0\t0\t0\t2\t0\n",
    ),
    (
        "edge 13: one byte under two instructions",
        "N\ta\n0000\t0002\n220100A0\n",
        "a\t4\t3\t4\t0\t1\t0\nT\t4\t3\t4\t0\t1\t0\t1\t0\n",
    ),
    (
        "bytes under two and three instructions count once",
        "N\ta\n0000\t0001\t0002\n4444444464A0A0\n",
        "a\t7\t7\t7\t0\t5\t0\nT\t7\t7\t7\t0\t5\t0\t1\t0\n",
    ),
    (
        "one byte under three instructions",
        "N\ta\n0000\t0001\t0002\n2222A0A0\n",
        "a\t4\t4\t4\t0\t3\t0\nT\t4\t4\t4\t0\t3\t0\t1\t0\n",
    ),
    (
        "neighbours share no byte",
        "N\ta\n0000\n8100A0\n",
        "a\t3\t2\t3\t0\t0\t0\nT\t3\t2\t3\t0\t0\t0\t1\t0\n",
    ),
    (
        "a jump to itself",
        "N\ta\n0000\n01FE\n",
        "a\t2\t1\t2\t0\t0\t1\nT\t2\t1\t2\t0\t0\t1\t1\t0\n",
    ),
    (
        "a branch to its own next names it",
        "N\ta\n0000\n8000A0\n",
        "a\t3\t2\t3\t0\t0\t1\nT\t3\t2\t3\t0\t0\t1\t1\t0\n",
    ),
    (
        "next is not named after a call",
        "N\ta\n0000\n0803A0A0\n",
        "a\t4\t3\t4\t0\t0\t1\nT\t4\t3\t4\t0\t0\t1\t1\t0\n",
    ),
    (
        "named twice counts once",
        "N\ta\n0000\n800480020000A0\n",
        "a\t7\t5\t7\t0\t0\t1\nT\t7\t5\t7\t0\t0\t1\t1\t0\n",
    ),
    (
        "an entry is not named",
        "N\ta\n0000\t0001\n00A0\n",
        "a\t2\t2\t2\t0\t0\t0\nT\t2\t2\t2\t0\t0\t0\t1\t0\n",
    ),
    (
        "edge 14: a target below 0 is no target mark",
        "N\ta\n0000\n0180\n",
        "a\t2\t1\t2\t0\t0\t0\nT\t2\t1\t2\t0\t0\t0\t1\t0\n",
    ),
    (
        "a target at the end is no target mark",
        "N\ta\n0000\n0100\n",
        "a\t2\t1\t2\t0\t0\t0\nT\t2\t1\t2\t0\t0\t0\t1\t0\n",
    ),
    (
        "a target into an instruction",
        "N\ta\n0000\n80FF00A0\n",
        "a\t4\t4\t4\t0\t2\t1\nT\t4\t4\t4\t0\t2\t1\t1\t0\n",
    ),
    (
        "edge 12: B8 0D 21 00 00, entry 0",
        "N\ta\n0000\nB80D210000\n",
        "a\t5\t2\t5\t0\t0\t0\nT\t5\t2\t5\t0\t0\t0\t1\t0\n",
    ),
    (
        "edge 12: B8 0D 21 00 00, entry 2",
        "N\ta\n0002\nB80D210000\n",
        "a\t5\t2\t5\t0\t0\t0\nT\t5\t2\t5\t0\t0\t0\t1\t0\n",
    ),
    (
        "a flash call's target stays data",
        "N\ta\n0000\nB80D210006A0A0\n",
        "a\t7\t2\t5\t2\t0\t0\nT\t7\t2\t5\t2\t0\t0\t1\t0\n",
    ),
    (
        "B8 0D that is not traced is no exception",
        "N\ta\n0002\nB80D210005A0\n",
        "a\t6\t2\t4\t2\t0\t1\nT\t6\t2\t4\t2\t0\t1\t1\t0\n",
    ),
    (
        "one byte is missing",
        "N\ta\n0000\n6800\n",
        "a\tR\t5\nT\t0\t0\t0\t0\t0\t0\t0\t1\n",
    ),
    (
        "two bytes are missing",
        "N\ta\n0000\n68\n",
        "a\tR\t5\nT\t0\t0\t0\t0\t0\t0\t0\t1\n",
    ),
    (
        "cut off after some steps, which are not added up",
        "N\ta\n0000\n0064\n68\n",
        "a\tR\t5\nT\t0\t0\t0\t0\t0\t0\t0\t1\n",
    ),
    (
        "what is not reached cuts nothing off",
        "N\ta\n0000\nA068\n",
        "a\t2\t1\t1\t1\t0\t0\nT\t2\t1\t1\t1\t0\t0\t1\t0\n",
    ),
    (
        "accepted, cut off, malformed and accepted",
        "N\ta\n0000\nA0\n\nN\tb\n0000\n68\n\nN\tc\n0000\n6\n\nN\td\n0000\n01FE41\n",
        "a\t1\t1\t1\t0\t0\t0\nb\tR\t5\nc\tR\t13\nd\t3\t1\t2\t1\t0\t1\nT\t4\t2\t3\t1\t0\t1\t2\t2\n",
    ),
    (
        "two images share nothing: entries and bytes begin anew",
        "N\ta\n0000\t0001\n8181A0A0\n\nN\tb\n-\nA0\n\nN\tc\n0000\nA0\n",
        "a\t4\t4\t4\t0\t2\t0\nb\t1\t0\t0\t1\t0\t0\nc\t1\t1\t1\t0\t0\t0\nT\t6\t5\t5\t1\t2\t0\t3\t0\n",
    ),
    (
        "32 bytes on a line",
        "N\ta\n0000\nA0000000000000000000000000000000000000000000000000000000000000FF\n",
        "a\t32\t1\t1\t31\t0\t0\nT\t32\t1\t1\t31\t0\t0\t1\t0\n",
    ),
];

pub fn cases() -> Vec<Case> {
    let cases = CASES.iter();
    cases
        .map(|(about, text, output)| Case::told(about, text, output))
        .collect()
}
