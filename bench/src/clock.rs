//! Times. A sample goes through all images of a length, so that no branch predictor is trained on one, as often
//! as it takes to last a while. Sides and lengths take turns, so that a busy moment of the machine meets all.

use crate::earlier;
use std::ffi::{c_int, c_long};

/// As many samples as there is time for, within these numbers.
const SAMPLES: (usize, usize) = (5, 15);
/// The seconds that a sample lasts at least, and that there is time for.
const SHORT: f64 = 0.005;
const LONG: f64 = 8.0;

/// Ours, the original and the plain side.
pub const SIDES: usize = 3;
pub const OURS: usize = 0;
pub const ORIGINAL: usize = 1;
pub const PLAIN: usize = 2;

/// What each side does with a case; a side without an entry has no such call.
pub type Sides<'a, C> = [Option<Box<dyn FnMut(&C) + 'a>>; SIDES];

/// Seconds for each case, by the shortest of the samples: what disturbs makes one longer, never shorter.
pub type Times = [Option<f64>; SIDES];

/// The times for each group of cases.
pub fn measure<C>(groups: &[&[C]], mut sides: Sides<C>) -> Vec<Times> {
    let mut passes = vec![[0; SIDES]; groups.len()];
    let mut turn = 0.0;
    for (cases, passes) in groups.iter().zip(&mut passes) {
        for (side, passes) in sides.iter_mut().zip(passes) {
            if let Some(work) = side {
                let once = sample(cases, work, 1, 0) * cases.len() as f64;
                *passes = (SHORT / once).ceil().max(1.0) as usize;
                turn += once * *passes as f64;
            }
        }
    }
    let mut samples = vec![[const { vec![] }; SIDES]; groups.len()];
    for turn in 0..((LONG / turn) as usize).clamp(SAMPLES.0, SAMPLES.1) {
        for (group, cases) in groups.iter().enumerate() {
            for (index, side) in sides.iter_mut().enumerate() {
                if let Some(work) = side {
                    let time = sample(cases, work, passes[group][index], turn);
                    samples[group][index].push(time);
                }
            }
        }
    }
    let shortest = samples.into_iter();
    earlier::lower(shortest.map(|sides| sides.map(lowest)).collect())
}

/// The seconds for each case, from another one on at each turn.
fn sample<C>(cases: &[C], work: &mut dyn FnMut(&C), passes: usize, turn: usize) -> f64 {
    let (before, after) = cases.split_at(turn * 7 % cases.len());
    let start = now();
    for _ in 0..passes {
        after.iter().chain(before).for_each(&mut *work);
    }
    (now() - start) / (passes * cases.len()) as f64
}

/// As C has it on 64-bit Linux.
#[repr(C)]
struct Timespec {
    seconds: c_long,
    nanoseconds: c_long,
}

unsafe extern "C" {
    fn clock_gettime(clock: c_int, time: *mut Timespec) -> c_int;
}

/// The processor time of this thread on Linux: what others do on the machine does not count.
const CLOCK_THREAD_CPUTIME_ID: c_int = 3;

/// The seconds that this thread has worked.
fn now() -> f64 {
    let mut time = Timespec {
        seconds: 0,
        nanoseconds: 0,
    };
    let failed = unsafe { clock_gettime(CLOCK_THREAD_CPUTIME_ID, &mut time) };
    assert!(failed == 0, "Linux has this clock");
    time.seconds as f64 + time.nanoseconds as f64 * 1e-9
}

/// Nothing where there are none.
fn lowest(list: Vec<f64>) -> Option<f64> {
    list.into_iter().min_by(f64::total_cmp)
}
