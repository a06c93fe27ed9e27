//! The game-like image as an input.

use super::stored::Case;
use compare::game::{self, FLASH, VECTORS};
use compare::original;
use compare::paper::{input, listing};
use std::collections::HashSet;

/// At least so many bytes.
const LENGTH: usize = 10_000;

pub fn case() -> Case {
    let image = game::image(LENGTH);
    let entries: Vec<String> = VECTORS.iter().map(|at| format!("{at:04X}")).collect();
    let bytes: Vec<String> = image.iter().map(|byte| format!("{byte:02X}")).collect();
    let lines: Vec<String> = bytes.chunks(32).map(|line| line.concat()).collect();
    let text = format!("{}\n{}\n", entries.join("\t"), lines.join("\n"));
    let case = Case::new("a game-like image", &text);
    check(&case.text());
    case
}

/// All forms are traced, a flash call and calls among them, and there are labels, overlaps and tables.
fn check(text: &[u8]) {
    let input = input::parse(text).expect("a good text");
    let marks = listing::marks(&input).expect("no instruction is cut off");
    let traced = (0..input.image.len()).filter(|at| marks[*at] >= 2);
    let forms: HashSet<usize> = traced.map(|at| original::form(input.image[at])).collect();
    assert_eq!(forms.len(), original::FORMS);
    assert_eq!(marks.iter().filter(|mark| **mark == 3).count(), FLASH.len());
    let output = listing::output(text);
    for letter in ["L\t", "O\t", "D\t"] {
        let count = output
            .lines()
            .filter(|line| line.starts_with(letter))
            .count();
        assert!(count > 50, "{letter}: {count}");
    }
}
