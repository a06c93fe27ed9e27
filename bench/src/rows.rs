//! The calls that are measured, of each side.

pub mod listed;
pub mod mapped;
pub mod tracing;
pub mod viewed;

use crate::cases::Case;
use crate::clock::{self, Sides, Times};
use compare::answer::Answer;
use compare::paper::Mode;
use pottagewing::{ARRIVALS_ROOM, Arrivals, IMAGE_LIMIT, MOST_BYTES};
use std::hint::black_box;

/// The original's mode: all rows are in it that do not say otherwise.
pub const MODE: Mode = Mode::Unwrapped;

/// Room for the longest listing of the longest image.
pub const LONGEST_LISTING: usize = ARRIVALS_ROOM * IMAGE_LIMIT;
/// The choice of a listing without arrivals.
pub const DECLINED: u32 = Arrivals::Declined as u32;

/// What is measured.
#[derive(Clone, Copy, PartialEq, Debug)]
pub enum Row {
    Decode,
    Start,
    /// A start and every step after it, each in a call.
    Steps,
    Run,
    Sweep,
    Mask,
    TargetMarks,
    /// At some positions: each call looks through the whole image for damage.
    Overlaps,
    Arrivals,
    /// From one to the next through the whole image.
    DataRuns,
    Listing,
    ListingWithArrivals,
    /// What the original does in one call.
    RunAndListing,
    ListText,
    /// What that program reads.
    Parse,
    /// The listing without arrivals, back into an image and marks.
    ReadBack,
    UnlistText,
    MapBuild,
    /// At some positions, as above.
    MapUpdate,
    /// At every position.
    MapTest,
    /// The code bytes of the whole image, by its map and by its byte mask.
    MapCount,
    /// The first data byte from 0 on, in the same way, of images whose data comes late.
    MapFirstData,
    /// In wrapping mode, which ours alone has.
    RunWrapping,
    ListingWrapping,
    /// Of an image that has branches alone.
    RunOfBranches,
    Replay,
    ReplayOfMany,
    ReplayInBlocks,
    ReportText,
    ReportProgram,
}

impl Row {
    pub fn name(self) -> &'static str {
        match self {
            Row::Decode => "decode at every position",
            Row::Start => "start",
            Row::Steps => "start and each step",
            Row::Run => "run",
            Row::Sweep => "sweep",
            Row::Mask => "mask",
            Row::TargetMarks => "target marks",
            Row::Overlaps => "overlaps at 64 positions",
            Row::Arrivals => "arrivals at 64 positions",
            Row::DataRuns => "data runs",
            Row::Listing => "listing",
            Row::ListingWithArrivals => "listing with arrivals",
            Row::RunAndListing => "run and listing",
            Row::ListText => "list text",
            Row::Parse => "parse",
            Row::ReadBack => "read back",
            Row::UnlistText => "unlist text",
            Row::MapBuild => "map build",
            Row::MapUpdate => "map update at 64 positions",
            Row::MapTest => "map test at every position",
            Row::MapCount => "map count",
            Row::MapFirstData => "map first data",
            Row::RunWrapping => "run, wrapping",
            Row::ListingWrapping => "listing, wrapping",
            Row::RunOfBranches => "run of branches alone",
            Row::Replay => "replay, 12 entries",
            Row::ReplayOfMany => "replay, 256 entries",
            Row::ReplayInBlocks => "replay in blocks",
            Row::ReportText => "report text",
            Row::ReportProgram => "report, the program",
        }
    }
}

/// Reads the number of an answer and so many of its values one by one, as a caller does. To copy it whole right after the call would wait
/// for what the call has just written.
#[inline(always)]
fn read<const N: usize>(answer: Answer) {
    black_box(answer.number);
    for value in &answer.values[..N] {
        black_box(*value);
    }
}

/// A row with its times at the lengths that it was measured at, the shortest first.
pub struct Measured {
    pub row: Row,
    pub times: Vec<Times>,
}

/// Makes what each side does.
type Make = fn() -> Sides<'static, Case>;

/// The rows over images like games, in the order of the report.
const OVER_IMAGES: [(Row, Make); 24] = [
    (Row::Decode, tracing::decoding),
    (Row::Start, tracing::starting),
    (Row::Steps, tracing::stepping),
    (Row::Run, tracing::running),
    (Row::Sweep, tracing::sweeping),
    (Row::Mask, viewed::masking),
    (Row::TargetMarks, viewed::marking),
    (Row::Overlaps, viewed::overlapping),
    (Row::Arrivals, viewed::arriving),
    (Row::DataRuns, viewed::running_over_data),
    (Row::Listing, || listed::listing(false)),
    (Row::ListingWithArrivals, || listed::listing(true)),
    (Row::RunAndListing, listed::running_and_listing),
    (Row::ListText, listed::listing_text),
    (Row::Parse, listed::parsing),
    (Row::ReadBack, listed::reading_back),
    (Row::UnlistText, listed::unlisting),
    (Row::MapBuild, mapped::building),
    (Row::MapUpdate, mapped::updating),
    (Row::MapTest, mapped::testing),
    (Row::MapCount, mapped::counting),
    (Row::MapFirstData, mapped::finding_data),
    (Row::RunWrapping, tracing::running_wrapping),
    (Row::ListingWrapping, listed::listing_wrapping),
];

/// Over images of each length, and over those whose data comes late.
pub fn measure(lengths: &[&[Case]], late: &[&[Case]]) -> Vec<Measured> {
    let fits = |cases: &&&[Case]| cases[0].image.len() <= MOST_BYTES;
    let short: Vec<&[Case]> = lengths.iter().filter(fits).copied().collect();
    let rows = OVER_IMAGES.iter().map(|(row, sides)| {
        let groups = match row {
            Row::MapFirstData => late,
            // An input may be no longer.
            Row::ListText | Row::Parse => &short,
            _ => lengths,
        };
        Measured {
            row: *row,
            times: clock::measure(groups, sides()),
        }
    });
    rows.collect()
}
