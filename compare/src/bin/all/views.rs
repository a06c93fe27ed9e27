//! The views over the marks that a run left, at every position and the one past the end.

use crate::ours;
use crate::run::Ran;
use crate::sums::{Call, Sums};
use compare::answer::Answer;
use compare::original::viewed;
use compare::paper::{Mode, views as paper};
use waterbear::disasm::probe::Graph;

/// The original's mode.
const MODE: Mode = Mode::Unwrapped;
/// Room for every view of an image of up to three bytes, and one place more.
const ROOM: usize = 4;

/// What a view answers and leaves.
type Outcome<T> = (Answer, [T; ROOM]);

pub fn all(sums: &mut Sums, image: &[u8], ran: &Ran) {
    let views = Views {
        image,
        marks: &ran.marks,
        graph: ran.graph.as_ref(),
    };
    views.mask(sums);
    views.target_marks(sums);
    for position in 0..=image.len() as u32 {
        views.overlaps(sums, position);
        views.arrivals(sums, position);
    }
}

struct Views<'a> {
    image: &'a [u8],
    marks: &'a [u8],
    graph: Option<&'a Graph>,
}

impl Views<'_> {
    fn mask(&self, sums: &mut Sums) {
        let told = self.graph.map(|graph| viewed::mask(graph, self.image));
        let ours = shown(|room| ours::mask(self.image, self.marks, room));
        let plain = shown(|room| paper::mask(self.image, self.marks, room));
        self.judge(sums, Call::Mask, 0, plain, told, ours);
    }

    fn target_marks(&self, sums: &mut Sums) {
        let told = |graph| viewed::target_marks(graph, self.image);
        let told = self.graph.map(told);
        let ours = shown(|room| ours::target_marks(MODE, self.image, self.marks, room));
        let plain = shown(|room| paper::target_marks(MODE, self.image, self.marks, room));
        self.judge(sums, Call::TargetMarks, 0, plain, told, ours);
    }

    fn overlaps(&self, sums: &mut Sums, position: u32) {
        let told = self.graph.map(|graph| viewed::overlaps(graph, position));
        let ours = shown(|room| ours::overlaps(self.image, self.marks, position, room));
        let plain = shown(|room| paper::overlaps(self.image, self.marks, position, room));
        self.judge(sums, Call::Overlaps, position, plain, told, ours);
    }

    fn arrivals(&self, sums: &mut Sums, position: u32) {
        let told = |graph| viewed::arrivals(graph, self.image, position);
        let told = self.graph.and_then(told);
        let ours = shown(|room| ours::arrivals(MODE, self.image, self.marks, position, room));
        let plain = shown(|room| paper::arrivals(MODE, self.image, self.marks, position, room));
        self.judge(sums, Call::Arrivals, position, plain, told, ours);
    }

    fn judge<T: Copy + PartialEq + std::fmt::Debug + From<u8>>(
        &self,
        sums: &mut Sums,
        call: Call,
        position: u32,
        plain: Outcome<T>,
        told: Option<Vec<T>>,
        ours: Outcome<T>,
    ) {
        let told = told.map(|list| shows(&list));
        let (image, marks) = (self.image, self.marks);
        sums.judge(call, &plain, told.as_ref(), &ours, || {
            format!("{image:02X?} marks {marks:?} at {position}")
        });
    }
}

fn old<T: From<u8>>() -> [T; ROOM] {
    std::array::from_fn(|at| T::from(7 + at as u8))
}

fn shown<T: From<u8>>(view: impl FnOnce(&mut [T]) -> Answer) -> Outcome<T> {
    let mut room = old();
    (view(&mut room), room)
}

/// What a view is to answer and leave that shows this list.
fn shows<T: Copy + From<u8>>(list: &[T]) -> Outcome<T> {
    let mut room = old();
    room[..list.len()].copy_from_slice(list);
    (Answer::new(Answer::DONE, &[list.len() as i64]), room)
}
