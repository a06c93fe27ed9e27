//! Both sides of each limit, long lines, and terms of many images.

use super::stored::Case;

/// What follows an image that is at a limit: it ends and is not in the sums twice.
const BEHIND: &str = "\nN\tz\n0000\n01FE41\n";

pub fn cases() -> Vec<Case> {
    let single = entries().into_iter().chain(bytes()).chain(long_lines());
    let behind = single.map(|case| case.and(1, BEHIND));
    behind.chain(many()).collect()
}

fn begun(about: &str) -> Case {
    Case::new(about, "N\ta\n")
}

/// On entries, and with as many bytes as there may be on lines of their own.
fn entries() -> [Case; 6] {
    let first = |about: &str| begun(about).and(1, "0000");
    let longest = |about: &str| {
        let entries = first(about).and(255, "\tFFFF");
        entries.and(1, "\n").and(16_384, "00\n")
    };
    [
        first("256 entries").and(255, "\t0000").and(1, "\nA0\n"),
        first("257 entries").and(256, "\t0000").and(1, "\nA0\n"),
        begun("257 entries, the last one half")
            .and(256, "0000\t")
            .and(1, "00\nA0\n"),
        begun("257 entries and no bytes")
            .and(256, "FFFF\t")
            .and(1, "FFFF\n"),
        longest("the longest image in lines of one byte"),
        longest("one line more than that").and(1, "00\n"),
    ]
}

/// On bytes.
fn bytes() -> [Case; 11] {
    let line = |byte: &str| format!("{}\n", byte.repeat(64 / byte.len()));
    let full =
        |about: &str, entries: &str, byte: &str| begun(about).and(1, entries).and(512, &line(byte));
    [
        full("16,384 bytes of data", "-\n", "FF"),
        full("16,384 Nop", "0000\n", "00"),
        full("the 16,385th byte", "-\n", "01").and(1, "01\n"),
        full("the 16,385th byte, in a line of 32", "-\n", "01").and(1, &line("01")),
        full("the 16,385th byte and many more", "-\n", "01").and(900, &line("01")),
        full("16,384 bytes and half a byte", "-\n", "01").and(1, "0\n"),
        begun("the 16,385th byte, second in its line")
            .and(1, "-\n")
            .and(511, &line("01"))
            .and(1, &line("01")[2..])
            .and(1, "0101\n"),
        full("13 before 5: 16,385 bytes that cut off", "0000\n", "44").and(1, "44\n"),
        full("44 repeated is cut off", "0000\t0001\t0002\n", "44"),
        begun("44 repeated, then 54 94")
            .and(1, "0000\t0001\t0002\n")
            .and(511, &line("44"))
            .and(30, "44")
            .and(1, "5494\n"),
        full(
            "two of 8,192 branches to themselves",
            "0000\t3FFE\n",
            "01FE",
        ),
    ]
}

/// Lines that are longer than any good one, in each place.
fn long_lines() -> [Case; 10] {
    [
        Case::new("an N line of 100,000 bytes", "N\t")
            .and(99_998, "a")
            .and(1, "\n-\nA0\n"),
        Case::new("a line of 100,000 bytes for an N line", "")
            .and(100_000, "x")
            .and(1, "\n"),
        Case::new("100,000 tabs for an N line", "N")
            .and(100_000, "\t")
            .and(1, "\n"),
        Case::new("a line of entries of 100,000 digits", "N\ta\n")
            .and(100_000, "0")
            .and(1, "\nA0\n"),
        Case::new("a line of 20,000 entries", "N\ta\n")
            .and(20_000, "0000\t")
            .and(1, "0000\nA0\n"),
        Case::new("100,000 dashes for no entries", "N\ta\n")
            .and(100_000, "-")
            .and(1, "\nA0\n"),
        Case::new("a line of 50,000 bytes", "N\ta\n-\n")
            .and(50_000, "A0")
            .and(1, "\n"),
        Case::new("a line of 100,000 NUL", "N\ta\n-\nA0\n")
            .and(100_000, "\0")
            .and(1, "\nA0\n"),
        Case::new("a long line behind a bad one", "N\ta\n0\n")
            .and(100_000, "0")
            .and(1, "\n"),
        Case::new("30,000 lines behind a bad one", "N\ta\n0\n").and(30_000, "A0\n"),
    ]
}

fn many() -> [Case; 7] {
    let sample = "N\tSample\n0000\n0102004164\n80F9A0\n\n";
    [
        Case::new("2,000 times the sample", "").and(2_000, sample),
        Case::new("10,000 empty images", "").and(10_000, "N\ta\n\n"),
        Case::new("10,000 bad N lines", "").and(10_000, "x\n\n"),
        Case::new("10,000 bad lines of entries", "").and(10_000, "N\ta\n0\n\n"),
        Case::new("100,000 empty lines, then the sample", "")
            .and(100_000, "\n")
            .and(1, sample),
        Case::new("1,000 times three kinds", "").and(
            1_000,
            "N\tGood\n0000\nA041\n\nN\tCut\n0000\n68\n\nN\tBad\n0000\n6\n\n",
        ),
        Case::new("99 images, one without a part behind it", "")
            .and(99, sample)
            .and(1, "N\tlast\n-\nFF"),
    ]
}
