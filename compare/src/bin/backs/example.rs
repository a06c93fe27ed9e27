//! Document 01's example: its image, its listing, and the listing with a line changed.

pub const IMAGE: [u8; 8] = [0x01, 0x02, 0x00, 0x41, 0x64, 0x80, 0xF9, 0xA0];
pub const MARKS: [u8; 8] = [2, 0, 0, 0, 2, 2, 0, 2];

pub const TEXT: &str = "\
L\t0000
I\t0000\t0102\tbr\t0004
D\t0002\t0041
L\t0004
I\t0004\t64\tinc\t@R0
I\t0005\t80F9\tbz\t0000
I\t0007\tA0\tret
";

/// With other text in the place of a line, counted from 1.
pub fn with(line: usize, by: &str) -> String {
    let mut lines: Vec<&str> = TEXT.split_inclusive('\n').collect();
    lines[line - 1] = by;
    lines.concat()
}
