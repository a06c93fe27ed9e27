//! Branches each of which leads to the one below: the engine that sweeps takes one of them in each sweep, and so takes
//! time by the square of the length. There is one image of each length, so these figures are of a trained branch predictor.

use crate::LENGTHS;
use crate::check::tracing as check;
use crate::clock;
use crate::report;
use crate::rows::{Measured, Row, tracing as rows};

/// The run of them; sweeps are printed only.
pub fn measure() -> Result<Measured, &'static str> {
    report::head(
        "microseconds for branches that lead down one by one, taken first come, first served, and swept",
    );
    let mut times = vec![];
    for (length, _) in LENGTHS {
        let image = image(length);
        check::running_alone(&image)?;
        let sweeps = check::sweeping_alone(&image)?;
        let images = &[&[image][..]];
        let name = |call: &str| format!("{call}, {} KiB", length / 1024);
        let run = clock::measure(images, rows::running_alone())[0];
        let swept = clock::measure(images, rows::sweeping_alone())[0];
        report::line(&name("run"), run);
        report::line(&name("sweep"), swept);
        report::against(&format!("{sweeps} sweeps, sweep/run"), swept, run);
        times.push(run);
    }
    let row = Row::RunOfBranches;
    Ok(Measured { row, times })
}

/// A Jmpf to the highest branch, a Ret, and branches two bytes back.
fn image(length: usize) -> Vec<u8> {
    let [high, low] = (length as u16).wrapping_sub(2).to_be_bytes();
    let mut image = vec![0x21, high, low, 0x00, 0xA0, 0x00];
    while image.len() < length {
        image.extend([0x01, 0xFC]);
    }
    image
}
