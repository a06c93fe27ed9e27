//! Images like those of games: vectors, a header with an icon, and routines with branches, loops, calls and
//! tables of data between them, up to some zeros at the end. Overlaps are rare.

use crate::plain::forms::FORMS;
use compare::random::Random;

/// The entries that the original traces a game from.
pub const ENTRIES: [u32; 12] = [
    0, 0x3, 0xB, 0x13, 0x1B, 0x23, 0x2B, 0x33, 0x3B, 0x43, 0x4B, 0x130,
];

const HEADER: usize = 0x200;
const CODE: usize = 0x480;
/// Not1 of 0x10D, 0 and a Jmpf that leaves the image for the one in ROM.
const LEAVE: [u8; 5] = [0xB8, 0x0D, 0x21, 0x01, 0x30];
const JMPF: u8 = 0x21;
const BR: u8 = 0x01;
const RET: u8 = 0xA0;
const RETI: u8 = 0xB0;
const CALL: u8 = 0x08;
const CALLF: u8 = 0x20;

/// First bytes of instructions that go on, and how often each stands in a hundred or so.
const PLAIN: [(u8, u64); 30] = [
    (0x02, 6),
    (0x03, 6),
    (0x12, 6),
    (0x13, 6),
    (0x22, 6),
    (0x23, 5),
    (0x25, 3),
    (0x05, 2),
    (0x16, 2),
    (0x81, 4),
    (0x82, 3),
    (0x91, 1),
    (0xA1, 3),
    (0xA3, 2),
    (0x62, 4),
    (0x72, 3),
    (0x66, 1),
    (0xE1, 4),
    (0xD1, 2),
    (0xF1, 2),
    (0xC0, 2),
    (0xE0, 2),
    (0x61, 4),
    (0x71, 4),
    (0xF9, 4),
    (0xD9, 4),
    (0xC1, 1),
    (0x30, 1),
    (0xC2, 1),
    (0x00, 1),
];

/// First bytes of conditional branches.
const BRANCHES: [(u8, u64); 11] = [
    (0x80, 5),
    (0x90, 5),
    (0x31, 3),
    (0x41, 4),
    (0x33, 1),
    (0x42, 1),
    (0x68, 3),
    (0x89, 3),
    (0x53, 2),
    (0x55, 1),
    (0x46, 1),
];

pub fn image(length: usize, random: &mut Random) -> Vec<u8> {
    let mut maker = Maker {
        random,
        image: vec![0; CODE],
        routines: vec![],
        calls: vec![],
    };
    maker.header();
    let end = length - length / 32;
    loop {
        let before = maker.image.len();
        maker.routine();
        if maker.random.below(5) < 2 {
            maker.table();
        }
        if maker.image.len() > end {
            maker.cut(before);
            break;
        }
    }
    maker.link();
    maker.image.resize(length, 0);
    maker.image
}

/// Instructions that go on, one after the other from 0, then Ret and bytes of data.
pub fn straight(length: usize, random: &mut Random) -> Vec<u8> {
    let mut maker = Maker {
        random,
        image: vec![],
        routines: vec![],
        calls: vec![],
    };
    while maker.image.len() < length - length / 64 {
        let first = maker.weighted(&PLAIN);
        maker.instruction(first);
    }
    maker.image.push(RET);
    maker.image.resize(length, 0xFF);
    maker.image
}

struct Maker<'a> {
    random: &'a mut Random,
    image: Vec<u8>,
    /// Where routines begin.
    routines: Vec<usize>,
    /// Where calls and jumps between routines stand.
    calls: Vec<usize>,
}

impl Maker<'_> {
    fn header(&mut self) {
        for entry in &ENTRIES[1..11] {
            self.image[*entry as usize] = RETI;
        }
        let leave = ENTRIES[11] as usize;
        self.image[leave..leave + LEAVE.len()].copy_from_slice(&LEAVE);
        for at in HEADER..CODE {
            self.image[at] = self
                .random
                .pick(&[0, 0, 0x11, 0x1F, 0xF1, 0x20, 0x41, 0x61, 0xFF]);
        }
        self.image[0] = JMPF;
        self.calls.push(0);
    }

    /// Some ten to seventy instructions, and an end.
    fn routine(&mut self) {
        self.routines.push(self.image.len());
        let count = 10 + self.random.below(60) as usize;
        let mut starts = vec![];
        let mut branches = vec![];
        for _ in 0..count {
            starts.push(self.image.len());
            match self.random.below(100) {
                0..20 => {
                    branches.push(starts.len() - 1);
                    let first = self.weighted(&BRANCHES);
                    self.instruction(first);
                }
                20..28 => {
                    self.calls.push(self.image.len());
                    let first = self.random.pick(&[CALLF, CALLF, CALLF, CALL]);
                    self.instruction(first);
                }
                _ => {
                    let first = self.weighted(&PLAIN);
                    self.instruction(first);
                }
            }
        }
        starts.push(self.image.len());
        self.end(&starts);
        for branch in branches {
            self.aim(&starts, branch);
        }
    }

    fn weighted(&mut self, list: &[(u8, u64)]) -> u8 {
        let mut left = self
            .random
            .below(list.iter().map(|(_, weight)| weight).sum());
        for (first, weight) in list {
            if left < *weight {
                return *first;
            }
            left -= weight;
        }
        unreachable!("less than all weights")
    }

    /// An instruction with operands by chance.
    fn instruction(&mut self, first: u8) {
        self.image.push(first);
        for _ in 1..FORMS[first as usize].size {
            let byte = self.random.any() as u8;
            self.image.push(byte);
        }
    }

    /// Mostly Ret, else a jump to another routine or back to the beginning.
    fn end(&mut self, starts: &[usize]) {
        let back = starts[0] as i64 - self.image.len() as i64 - 2;
        match self.random.below(16) {
            0 => {
                self.calls.push(self.image.len());
                self.instruction(JMPF);
            }
            1 if back >= -128 => self.image.extend([BR, back as u8]),
            _ => self.image.push(RET),
        }
    }

    /// Lets a branch lead to an instruction of its routine, forward more often than back, and at times into
    /// the middle of one.
    fn aim(&mut self, starts: &[usize], branch: usize) {
        let size = FORMS[self.image[starts[branch]] as usize].size as usize;
        let next = starts[branch] + size;
        let away = 2 + self.random.below(10) as usize;
        let wanted = match self.random.below(3) {
            0 => branch.saturating_sub(away),
            _ => (branch + away).min(starts.len() - 1),
        };
        let inside = usize::from(self.random.below(400) == 0);
        let offset = (starts[wanted] + inside) as i64 - next as i64;
        self.image[next - 1] = offset.clamp(-128, 127) as u8;
    }

    /// Bytes of a picture, of text or of numbers, zeros among them.
    fn table(&mut self) {
        let length = 8 + self.random.below(200) as usize;
        let kind = self.random.below(4);
        for _ in 0..length {
            let byte = match kind {
                0 => self.random.pick(&[0, 0, 0, 0x18, 0x3C, 0x7E, 0xFF]),
                1 => 0x20 + self.random.below(0x5F) as u8,
                2 => self.random.pick(&[0, 1, 2, 4, 8, 0x10]),
                _ => self.random.any() as u8,
            };
            self.image.push(byte);
        }
    }

    /// Takes back what was made from here on.
    fn cut(&mut self, end: usize) {
        self.image.truncate(end);
        self.routines.retain(|start| *start < end);
        self.calls.retain(|call| *call < end);
    }

    /// Lets each call lead to a routine: the far ones in turn, so that each is called, and then to any.
    fn link(&mut self) {
        let mut turns = self.routines.clone().into_iter();
        for call in std::mem::take(&mut self.calls) {
            let any = self.random.pick(&self.routines);
            if self.image[call] == CALL {
                self.link_near(call);
            } else {
                let routine = turns.next().unwrap_or(any) as u16;
                self.image[call + 1..call + 3].copy_from_slice(&routine.to_be_bytes());
            }
        }
    }

    /// A call within its page; where no routine begins there, two Nop.
    fn link_near(&mut self, call: usize) {
        let near = |routine: &usize| routine & 0xF000 == (call + 2) & 0xF000;
        let near: Vec<usize> = self.routines.iter().copied().filter(near).collect();
        let bytes = match near.is_empty() {
            true => [0x00, 0x00],
            false => {
                let field = self.random.pick(&near) & 0xFFF;
                let high = (field >> 7 & 0x10 | field >> 8 & 7) as u8;
                [CALL | high, field as u8]
            }
        };
        self.image[call..call + 2].copy_from_slice(&bytes);
    }
}
