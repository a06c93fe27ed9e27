//! Images that are made so that it is known how often they are swept.

use compare::random::Random;

/// A Ret, and instructions of one byte that go on.
const RET: u8 = 0xA0;
const ONWARD: [u8; 5] = [0x00, 0x64, 0x75, 0x30, 0xC0];
/// A Brf, and a Jmpf.
const BRF: u8 = 0x11;
const JMPF: u8 = 0x21;
/// A Br, a Bz and a Bnz, which lead two bytes back with this offset.
const BRANCHES: [u8; 3] = [0x01, 0x80, 0x90];
const TWO_BACK: u8 = 0xFC;
/// The most blocks of an image, and branches; these are longer once.
const BLOCKS: u64 = 120;
const LADDER: u64 = 300;
const LONGEST_LADDER: usize = 6_000;

/// An image, its entry, and the number of sweeps, the last one counted.
pub fn image(random: &mut Random, turn: u64) -> (Vec<u8>, u32, i64) {
    match turn % 8 {
        0 if turn == 0 => ladder(random, LONGEST_LADDER),
        0 => {
            let branches = random.below(LADDER) as usize;
            ladder(random, branches)
        }
        _ => blocks(random),
    }
}

/// A Ret and branches above it, each to the one below: each takes a sweep of its own.
fn ladder(random: &mut Random, branches: usize) -> (Vec<u8>, u32, i64) {
    let mut image = vec![RET, RET];
    for _ in 0..branches {
        image.extend([random.pick(&BRANCHES), TWO_BACK]);
    }
    (image, 2 * branches as u32, branches as i64 + 2)
}

/// Blocks that stand in some order and lead to one another in another: each time that it goes back takes a sweep more.
fn blocks(random: &mut Random) -> (Vec<u8>, u32, i64) {
    let count = 1 + random.below(BLOCKS) as usize;
    let sizes: Vec<usize> = (0..count).map(|_| random.below(5) as usize).collect();
    let mut starts = vec![0];
    for size in &sizes {
        starts.push(starts[starts.len() - 1] + size + 3);
    }
    let order = shuffled(random, count);
    let mut image = vec![RET; starts[count]];
    for (place, block) in order.iter().enumerate() {
        let jump = starts[*block] + sizes[*block];
        image[starts[*block]..jump].fill_with(|| random.pick(&ONWARD));
        if let Some(next) = order.get(place + 1) {
            let bytes = leading(random, jump, starts[*next]);
            image[jump..jump + 3].copy_from_slice(&bytes);
        }
    }
    let back = order.windows(2).filter(|pair| pair[1] < pair[0]).count();
    (image, starts[order[0]] as u32, back as i64 + 2)
}

/// A jump from one position to another.
fn leading(random: &mut Random, from: usize, to: usize) -> [u8; 3] {
    let [high, low] = (to as u16).to_be_bytes();
    if random.below(2) == 0 {
        return [JMPF, high, low];
    }
    let next = from + 3;
    let [high, low] = (to as u16).wrapping_sub(next as u16 - 1).to_be_bytes();
    [BRF, low, high]
}

fn shuffled(random: &mut Random, count: usize) -> Vec<usize> {
    let mut order: Vec<usize> = (0..count).collect();
    for place in (1..count).rev() {
        let other = random.below(place as u64 + 1) as usize;
        order.swap(place, other);
    }
    order
}
