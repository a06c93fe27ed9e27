//! The images that are measured, with what the calls need: marks, the listing, and the graph that the original
//! made.

use crate::games;
use crate::plain::listing::Lister;
use crate::plain::sweep::Sweeper;
use crate::plain::trace::{Ended, Tracer};
use crate::plain::{maps, views};
use crate::texts;
use compare::random::Random;
use pottagewing::MOST_BYTES;
use waterbear::budget::{self, Ended as Original};
use waterbear::disasm::probe::{self, Graph};

/// An image on which the original takes more visits than this for each byte is left out.
const VISITS: u64 = 16;
/// The positions of an image at which a call is made that looks through all of it.
pub const SAMPLED: usize = 64;

pub struct Case {
    pub image: Vec<u8>,
    pub entries: Vec<u32>,
    pub marks: Vec<u8>,
    /// The positions taken up, in their order.
    pub order: Vec<u32>,
    /// 1 for each byte of code, and the same in words.
    pub mask: Vec<u8>,
    pub map: Vec<u64>,
    /// Without arrivals.
    pub listing: Vec<u8>,
    /// What the listing program takes, of an image that is not too long for it.
    pub input: Vec<u8>,
    pub graph: Graph,
    /// How often the original took a position up, repeats counted.
    pub visits: u64,
    /// How often it is swept, the last time counted.
    pub sweeps: usize,
    /// Some positions, most of them traced.
    pub sampled: Vec<u32>,
}

impl Case {
    /// Entries as the original has them.
    pub fn wide_entries(&self) -> Vec<usize> {
        self.entries.iter().map(|entry| *entry as usize).collect()
    }

    /// Nothing where the original is given up.
    pub fn new(image: Vec<u8>, entries: &[u32], visits: u64, random: &mut Random) -> Option<Case> {
        let mut tracer = Tracer::default();
        let ended = tracer.run(&image, entries, usize::MAX);
        assert!(ended == Ended::Finished, "a game is not cut off");
        let wide: Vec<usize> = entries.iter().map(|entry| *entry as usize).collect();
        let graph = match probe::trace(&wide, &image, visits) {
            Original::Answered(Ok(graph)) => graph,
            Original::OverLimit => return None,
            _ => panic!("the original ends on a game"),
        };
        let visits = budget::spent();
        let mut lister = Lister::default();
        lister.list(&image, &tracer.marks, false);
        let (mut mask, mut map) = (vec![], vec![]);
        views::mask(&image, &tracer.marks, &mut mask);
        maps::build(&image, &tracer.marks, &mut map);
        let input = match image.len() > MOST_BYTES {
            true => vec![],
            false => texts::input(entries, &image).into_bytes(),
        };
        let sampled = (0..SAMPLED).map(|turn| match turn % 4 {
            0 => random.below(image.len() as u64) as u32,
            _ => random.pick(&tracer.order),
        });
        Some(Case {
            sampled: sampled.collect(),
            sweeps: Sweeper::default().sweep(&image, entries),
            entries: entries.to_vec(),
            marks: tracer.marks,
            order: tracer.order,
            mask,
            map,
            listing: lister.text,
            input,
            image,
            graph,
            visits,
        })
    }
}

/// So many games of a length, and how many were left out.
pub fn games(count: usize, length: usize, random: &mut Random) -> (Vec<Case>, usize) {
    let mut cases = vec![];
    let mut left_out = 0;
    while cases.len() < count {
        let image = games::image(length, random);
        match Case::new(image, &games::ENTRIES, VISITS * length as u64, random) {
            Some(case) => cases.push(case),
            None => left_out += 1,
        }
    }
    (cases, left_out)
}

/// So many images of a length whose data comes late.
pub fn late(count: usize, length: usize, random: &mut Random) -> Vec<Case> {
    let one = |_| {
        let image = games::straight(length, random);
        let case = Case::new(image, &[0], VISITS * length as u64, random);
        case.expect("each position is taken up once")
    };
    (0..count).map(one).collect()
}
