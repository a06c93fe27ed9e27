//! What the original's tracer tells of an image, and what that says of a run with a limit.

use super::missing;
use crate::seen::{End, Seen};
use waterbear::budget::Ended;
use waterbear::disasm::probe::{self, CutOff, Graph};

/// The first byte of a Jmpf.
const JMPF: u8 = 0x21;

/// A whole trace.
pub struct Told {
    /// The positions with a whole instruction that were taken up, in the order of their first visits.
    pub taken: Vec<u32>,
    /// The position and first byte of the instruction that ended it, and how many bytes it lacks.
    pub cut_off: Option<(u32, u8, u8)>,
    /// The Jmpf that were not followed, ascending. Where it was cut off, the original does not say.
    pub unfollowed: Option<Vec<u32>>,
    /// Its graph, where it was not cut off.
    pub graph: Option<Graph>,
}

/// Traces from the entries; nothing where that takes more visits.
pub fn trace(entries: &[u32], image: &[u8], visits: u64) -> Option<Told> {
    let entries: Vec<usize> = entries.iter().map(|entry| *entry as usize).collect();
    let ended = probe::trace(&entries, image, visits);
    let mut taken = probe::first_visits(image);
    let (cut_off, unfollowed, graph) = match ended {
        Ended::OverLimit => return None,
        Ended::Panicked(words) => panic!("the original, on {image:02X?} {entries:?}: {words}"),
        Ended::Answered(Ok(graph)) => {
            assert!(
                taken.len() == graph.positions().len(),
                "all that it took up"
            );
            let jmpf = taken.iter().filter(|at| image[**at] == JMPF);
            let mut list = words(jmpf.filter(|at| graph.jumps(**at).is_empty()));
            list.sort_unstable();
            (None, Some(list), Some(graph))
        }
        Ended::Answered(Err(CutOff(position, first))) => {
            assert!(taken.pop() == Some(position), "it ends where it is cut off");
            let cut_off = (position as u32, first, missing(&image[position..]));
            (Some(cut_off), None, None)
        }
    };
    Some(Told {
        taken: words(&taken),
        cut_off,
        unfollowed,
        graph,
    })
}

fn words<'a>(positions: impl IntoIterator<Item = &'a usize>) -> Vec<u32> {
    positions.into_iter().map(|at| *at as u32).collect()
}

impl Told {
    /// A run with a limit is the beginning of the whole trace.
    pub fn under(&self, limit: u32) -> Seen {
        let (all, limit) = (self.taken.len(), limit as usize);
        let end = match self.cut_off {
            _ if limit < all => End::Stopped { steps: limit },
            Some(_) if limit == all => End::Stopped { steps: limit },
            Some((position, first, missing)) => End::CutOff {
                position,
                first,
                missing,
            },
            None => End::Finished {
                steps: all,
                noted: all,
            },
        };
        let taken = self.taken[..all.min(limit)].to_vec();
        let mut traced = taken.clone();
        traced.sort_unstable();
        let unfollowed = self.unfollowed.as_ref().map(|list| {
            let in_time = |at: &&u32| traced.binary_search(at).is_ok();
            list.iter().filter(in_time).copied().collect()
        });
        Seen {
            end,
            taken,
            traced,
            unfollowed,
        }
    }
}
