//! How much is compared: all of it; or in a short comparison one of so many, of what is tried by chance and of what is tried in order.

use std::sync::atomic::{AtomicU64, Ordering};

/// One of so many, where the comparison is short.
const SHORT: u64 = 101;

static OF: AtomicU64 = AtomicU64::new(1);
static TURN: AtomicU64 = AtomicU64::new(0);

pub fn shorten() {
    OF.store(SHORT, Ordering::Relaxed);
}

/// How often something is tried that a whole comparison tries so often.
pub fn times(count: u64) -> u64 {
    count.div_ceil(OF.load(Ordering::Relaxed))
}

/// Whether this one is tried, where a whole comparison tries each.
pub fn is_tried() -> bool {
    let of = OF.load(Ordering::Relaxed);
    of == 1 || TURN.fetch_add(1, Ordering::Relaxed).is_multiple_of(of)
}

/// From one thing that is tried to the next, where a whole comparison tries all in order.
pub fn stride() -> usize {
    OF.load(Ordering::Relaxed) as usize
}
