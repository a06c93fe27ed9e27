//! Empty lines: before, between and behind images, good and bad.

use super::stored::Case;

const CASES: [(&str, &str, &str); 12] = [
    ("byte 10 alone", "\n", "T\t0\t0\t0\t0\t0\t0\t0\t0\n"),
    (
        "empty lines alone",
        "\n\n\n\n",
        "T\t0\t0\t0\t0\t0\t0\t0\t0\n",
    ),
    (
        "empty lines before the first image",
        "\n\n\nN\ta\n-\nA0\n",
        "a\t1\t0\t0\t1\t0\t0\nT\t1\t0\t0\t1\t0\t0\t1\t0\n",
    ),
    (
        "an empty line behind the last image",
        "N\ta\n-\nA0\n\n",
        "a\t1\t0\t0\t1\t0\t0\nT\t1\t0\t0\t1\t0\t0\t1\t0\n",
    ),
    (
        "empty lines behind the last image",
        "N\ta\n-\nA0\n\n\n\n",
        "a\t1\t0\t0\t1\t0\t0\nT\t1\t0\t0\t1\t0\t0\t1\t0\n",
    ),
    (
        "several empty lines between two images",
        "N\ta\n-\nA0\n\n\n\n\nN\tb\n-\nA0A0\n",
        "a\t1\t0\t0\t1\t0\t0\nb\t2\t0\t0\t2\t0\t0\nT\t3\t0\t0\t3\t0\t0\t2\t0\n",
    ),
    (
        "an empty line behind an N line alone",
        "N\ta\n\n",
        "a\t0\t0\t0\t0\t0\t0\nT\t0\t0\t0\t0\t0\t0\t1\t0\n",
    ),
    (
        "empty lines behind a bad line",
        "N\ta\n0\n\n\n\nN\tb\n",
        "a\tR\t13\nb\t0\t0\t0\t0\t0\t0\nT\t0\t0\t0\t0\t0\t0\t1\t1\n",
    ),
    (
        "an empty line behind a bad N line",
        "x\n\n\nN\tb",
        "-\tR\t13\nb\t0\t0\t0\t0\t0\t0\nT\t0\t0\t0\t0\t0\t0\t1\t1\n",
    ),
    (
        "empty lines around a cut-off image",
        "\nN\ta\n0000\n68\n\n\nN\tb\n\n",
        "a\tR\t5\nb\t0\t0\t0\t0\t0\t0\nT\t0\t0\t0\t0\t0\t0\t1\t1\n",
    ),
    (
        "empty images one after the other",
        "N\ta\n\nN\tb\n\nN\tc\n\nN\td\n-\n\nN\te\n0000",
        "a\t0\t0\t0\t0\t0\t0\nb\t0\t0\t0\t0\t0\t0\nc\t0\t0\t0\t0\t0\t0\nd\t0\t0\t0\t0\t0\t0\ne\t0\t0\t0\t0\t0\t0\n\
         T\t0\t0\t0\t0\t0\t0\t5\t0\n",
    ),
    (
        "a space is no empty line",
        "N\ta\n-\nA0\n \nN\tb\n-\nA0\n",
        "a\tR\t13\nT\t0\t0\t0\t0\t0\t0\t0\t1\n",
    ),
];

pub fn cases() -> Vec<Case> {
    let cases = CASES.iter();
    cases
        .map(|(about, text, output)| Case::told(about, text, output))
        .collect()
}
