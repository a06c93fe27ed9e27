//! Prints what the plain report by document 02 says of the term on standard input. It stores what the program `report` is to print, and
//! stands in for it where the harness itself is tested.

use compare::paper::report;
use std::io::{Read, Write, stdin, stdout};

fn main() -> std::io::Result<()> {
    compare::paper::check_widths();
    compare::paper::flow::check_table();
    let mut text = vec![];
    stdin().read_to_end(&mut text)?;
    stdout().write_all(report::output(&text).as_bytes())
}
