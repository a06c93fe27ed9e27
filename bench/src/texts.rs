//! Images as the programs read them.

use std::fmt::Write;

/// So many bytes on a line.
const WIDTH: usize = pottagewing::MOST_IN_LINE;

/// A line of entries, and lines of bytes.
pub fn input(entries: &[u32], image: &[u8]) -> String {
    let entries: Vec<String> = entries.iter().map(|entry| format!("{entry:04X}")).collect();
    let mut text = entries.join("\t");
    for (at, byte) in image.iter().enumerate() {
        if at % WIDTH == 0 {
            text.push('\n');
        }
        write!(text, "{byte:02X}").expect("a string takes any text");
    }
    text.push('\n');
    text
}
