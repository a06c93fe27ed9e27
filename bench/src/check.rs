//! Holds the results of the three sides against each other, before anything is measured.

mod listed;
pub mod mapped;
pub mod tracing;
mod viewed;

use crate::cases::Case;

/// Nothing where all is equal; otherwise the call that differs.
pub fn check(cases: &[Case]) -> Result<(), &'static str> {
    for case in cases {
        tracing::decoding(case)?;
        tracing::running(case)?;
        tracing::running_into_the_end(case)?;
        tracing::stepping(case)?;
        tracing::stepping_wrongly(case)?;
        tracing::sweeping(case)?;
        viewed::viewing(case)?;
        viewed::overlapping(case)?;
        viewed::asking(case)?;
        viewed::running_over_data(case)?;
        listed::listing(case, false)?;
        listed::listing(case, true)?;
        listed::listing_text(case)?;
        listed::parsing(case)?;
        listed::reading_back(case)?;
        mapped::mapping(case)?;
        mapped::testing(case)?;
        mapped::updating(case)?;
        tracing::wrapping(case)?;
        listed::wrapping(case)?;
    }
    Ok(())
}

fn same(equal: bool, call: &'static str) -> Result<(), &'static str> {
    if equal { Ok(()) } else { Err(call) }
}
