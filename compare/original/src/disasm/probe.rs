//! The original's private tracing functions, made callable. Each function here calls one of them and
//! sorts what comes out of a hash table; what they answer is not judged here.

use super::*;
use crate::budget::{self, Ended};

/// What `build_instruction_graph` answers where it finds a whole instruction at each position.
pub struct Graph(InstructionGraph<i32, u8>);

/// The position and first byte of an instruction that the image's end cuts off.
#[derive(Debug, PartialEq)]
pub struct CutOff(pub usize, pub u8);

/// Traces from the entries, giving up after `visits` positions taken up, repeats counted.
pub fn trace(entries: &[usize], image: &[u8], visits: u64) -> Ended<Result<Graph, CutOff>> {
    budget::within(visits, || trace_without_limit(entries, image))
}

pub fn trace_without_limit(entries: &[usize], image: &[u8]) -> Result<Graph, CutOff> {
    match build_instruction_graph(entries, image) {
        Ok(graph) => Ok(Graph(graph)),
        Err(DisasmError::NoInstruction(position, first)) => Err(CutOff(position, first)),
        Err(_) => unreachable!("the other errors are about files"),
    }
}

/// The positions that the last trace took up, each once, in the order of their first visits. Where it
/// was cut off, the last is the one that did it.
pub fn first_visits(image: &[u8]) -> Vec<usize> {
    let mut seen = vec![false; image.len()];
    let mut visits = vec![];
    budget::each_left(|left| {
        let position = image.len() - left;
        if !std::mem::replace(&mut seen[position], true) {
            visits.push(position);
        }
    });
    visits
}

impl Graph {
    /// The traced positions, ascending.
    pub fn positions(&self) -> Vec<usize> {
        sorted(self.0.instrs().keys())
    }

    pub fn instruction(&self, position: usize) -> Option<&Instr<i32, u8>> {
        self.0.instrs().get(&position)
    }

    pub fn mask(&self, image: &[u8]) -> Vec<bool> {
        build_byte_mask(image, &self.0)
    }

    /// The positions that get a label, ascending, those outside the image too.
    pub fn labels(&self) -> Vec<usize> {
        sorted(self.named().labels.keys())
    }

    /// How many positions get a label.
    pub fn count_labels(&self) -> usize {
        self.named().labels.len()
    }

    fn named(&self) -> Names {
        let mut names = Names::new();
        compute_labels(&self.0, &mut names);
        names
    }

    pub fn overlaps(&self, position: usize) -> Vec<usize> {
        self.0.find_overlaps(position)
    }

    /// The positions from which this one is reached, ascending.
    pub fn arrivals(&self, position: usize) -> Vec<usize> {
        self.0.jump_from.get(&position).map_or(vec![], sorted)
    }

    /// The targets that a position had on any of its visits, ascending.
    pub fn jumps(&self, position: usize) -> Vec<usize> {
        self.0.jump_to.get(&position).map_or(vec![], sorted)
    }
}

/// The targets of an instruction when nothing is traced yet.
pub fn targets_alone(position: usize, instruction: &Instr<i32, u8>) -> Vec<usize> {
    targets(position, instruction, &InstructionGraph::<i32, u8>::new())
}

/// The data that the original would print at a position.
pub fn data_run<'a>(image: &'a [u8], mask: &[bool], position: usize, most: usize) -> &'a [u8] {
    read_chunk(byte_range(image, mask, position), most)
}

fn sorted<'a>(positions: impl IntoIterator<Item = &'a usize>) -> Vec<usize> {
    let mut list: Vec<usize> = positions.into_iter().copied().collect();
    list.sort_unstable();
    list
}
