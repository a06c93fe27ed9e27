//! Traces a small image from its entry and prints its listing.

use pottagewing::{Arrivals, Mode, listing, run};
use std::error::Error;
use std::io::{self, Write};
use std::process::ExitCode;

const IMAGE: [u8; 8] = [0x01, 0x02, 0x00, 0x41, 0x64, 0x80, 0xF9, 0xA0];
const ENTRIES: [u32; 1] = [0x0000];
/// What is traced in one mode is listed in the same: this one is the listing program's.
const MODE: Mode = Mode::Unwrapped;

fn print() -> Result<(), Box<dyn Error>> {
    let mut marks = [0; IMAGE.len()];
    let mut order = [0; IMAGE.len()];
    // No position is taken up twice, so that the image's length is limit enough for every run to finish. No pin is told: where a table
    // stands, its positions would be.
    let limit = IMAGE.len() as u32;
    run(MODE, &IMAGE, &mut marks, &mut order, &ENTRIES, &[], limit)?;
    let text = listing(MODE, &IMAGE, &marks, Arrivals::Declined)?;
    io::stdout().write_all(&text)?;
    Ok(())
}

fn main() -> ExitCode {
    match print() {
        Ok(()) => ExitCode::SUCCESS,
        Err(why) => {
            eprintln!("{why}");
            ExitCode::FAILURE
        }
    }
}
