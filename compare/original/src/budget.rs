//! A limit on how often the original decodes, and so on how many positions its tracer takes up: it
//! takes a position up again for every repeat in its list, which can be exponentially often. What was
//! left of the bytes at each decoding is kept, since it tells where the tracer was.

use std::any::Any;
use std::cell::{Cell, RefCell};
use std::panic::{AssertUnwindSafe, catch_unwind, resume_unwind};

thread_local! {
    static LEFT: RefCell<Vec<usize>> = const { RefCell::new(Vec::new()) };
    /// None outside of a call under a limit.
    static LIMIT: Cell<Option<u64>> = const { Cell::new(None) };
}

/// How a call under a limit ended.
#[derive(Debug, PartialEq)]
pub enum Ended<T> {
    Answered(T),
    OverLimit,
    Panicked(String),
}

struct Over;

/// Called by `decode_raw` with the number of bytes it was given. The unwinding past the limit prints
/// nothing.
pub fn spend(left: usize) {
    let Some(limit) = LIMIT.get() else { return };
    let spent = LEFT.with_borrow_mut(|all| {
        all.push(left);
        all.len() as u64
    });
    if spent > limit {
        resume_unwind(Box::new(Over));
    }
}

/// How often the last call under a limit decoded.
pub fn spent() -> u64 {
    LEFT.with_borrow(|all| all.len() as u64)
}

/// How many bytes were left at each decoding of the last call under a limit, in their order.
pub fn each_left(visit: impl FnMut(usize)) {
    LEFT.with_borrow(|all| all.iter().copied().for_each(visit))
}

/// Calls `work` and gives it up when it decodes more often than `limit`.
pub fn within<T>(limit: u64, work: impl FnOnce() -> T) -> Ended<T> {
    LEFT.with_borrow_mut(Vec::clear);
    LIMIT.set(Some(limit));
    let ended = catch_unwind(AssertUnwindSafe(work));
    LIMIT.set(None);
    match ended {
        Ok(answer) => Ended::Answered(answer),
        Err(cause) if cause.is::<Over>() => Ended::OverLimit,
        Err(cause) => Ended::Panicked(said(cause)),
    }
}

fn said(cause: Box<dyn Any + Send>) -> String {
    match cause.downcast::<String>() {
        Ok(text) => *text,
        Err(cause) => match cause.downcast::<&str>() {
            Ok(text) => text.to_string(),
            Err(_) => "no words".to_string(),
        },
    }
}
