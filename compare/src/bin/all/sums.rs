//! What was compared and what differed.

use std::fmt::Debug;

#[derive(Clone, Copy)]
pub enum Call {
    Run,
    Mask,
    TargetMarks,
    Overlaps,
    Arrivals,
    Listing,
    ReadBack,
}

const CALLS: [&str; 7] = [
    "run",
    "mask",
    "target marks",
    "overlaps",
    "arrivals",
    "listing",
    "read back",
];

/// Differences that are shown, of each thread.
const SHOWN: u64 = 10;

#[derive(Default)]
pub struct Sums {
    /// Images and sets of entries, by how their runs ended.
    pub finished: u64,
    pub cut_off: u64,
    /// Given up in the original, for too many visits.
    pub given_up: u64,
    /// The calls, and those of them whose answer the original has too.
    calls: [u64; CALLS.len()],
    with_original: [u64; CALLS.len()],
    differ: u64,
}

impl Sums {
    /// Counts one call: what is expected of it by the plain side, and by the original where it has it.
    pub fn judge<T: PartialEq + Debug>(
        &mut self,
        call: Call,
        plain: &T,
        original: Option<&T>,
        ours: &T,
        input: impl FnOnce() -> String,
    ) {
        self.calls[call as usize] += 1;
        self.with_original[call as usize] += u64::from(original.is_some());
        if ours != plain || original.is_some_and(|original| ours != original) {
            let name = CALLS[call as usize];
            self.differs(|| {
                let sides = format!("plain {plain:?}\n  original {original:?}\n  ours {ours:?}");
                format!("{name} of {}\n  {sides}", input())
            });
        }
    }

    /// Holds the plain side against the original, where these do not answer in the same words as ours.
    pub fn agree<T: PartialEq + Debug>(
        &mut self,
        plain: &T,
        original: &T,
        input: impl FnOnce() -> String,
    ) {
        if plain != original {
            self.differs(|| format!("{}\n  plain {plain:?}\n  original {original:?}", input()));
        }
    }

    fn differs(&mut self, text: impl FnOnce() -> String) {
        self.differ += 1;
        if self.differ <= SHOWN {
            println!("differ: {}", text());
        }
    }

    pub fn add(&mut self, other: Sums) {
        self.finished += other.finished;
        self.cut_off += other.cut_off;
        self.given_up += other.given_up;
        for call in 0..CALLS.len() {
            self.calls[call] += other.calls[call];
            self.with_original[call] += other.with_original[call];
        }
        self.differ += other.differ;
    }

    /// Prints the counts, and answers whether nothing differed.
    pub fn report(&self) -> bool {
        let (finished, cut_off) = (self.finished, self.cut_off);
        println!("runs: finished {finished}, cut off {cut_off}");
        println!("runs given up in the original: {}", self.given_up);
        println!("call                calls  with the original too");
        for (call, name) in CALLS.iter().enumerate() {
            let (calls, with_original) = (self.calls[call], self.with_original[call]);
            println!("{name:<12}  {calls:>11}  {with_original:>21}");
        }
        let calls: u64 = self.calls.iter().sum();
        let with_original: u64 = self.with_original.iter().sum();
        let differ = self.differ;
        println!("{calls} calls, {with_original} of them with the original too, {differ} differ");
        differ == 0
    }
}
