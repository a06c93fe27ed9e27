//! The numbers to try on both sides of every limit.

use crate::paper::Kind;

/// Numbers far from every limit, and those at the ends of the type.
const WILD: [i32; 10] = [
    i32::MIN,
    i32::MIN + 1,
    -65_536,
    -65_535,
    -256,
    65_792,
    131_071,
    0x0100_0000,
    i32::MAX - 1,
    i32::MAX,
];

/// Limits of some kind of operand: each kind is tried at the others' limits too.
const LIMITS: [i32; 10] = [-32_768, -128, 0, 3, 7, 127, 255, 511, 4_095, 65_535];

/// Bases at the ends of memory, around the pages' borders and past what is taken.
pub const BASES: [u32; 44] = [
    0, 1, 2, 3, 4, 126, 127, 128, 129, 130, 255, 256, 257, 4_093, 4_094, 4_095, 4_096, 4_097,
    4_098, 8_191, 8_192, 32_767, 32_768, 32_769, 61_439, 61_440, 61_441, 65_278, 65_407, 65_408,
    65_409, 65_532, 65_533, 65_534, 65_535, 65_536, 65_537, 65_538, 69_632, 131_072, 0x7FFFFFFF,
    0x80000000, 0xFFFFFFFE, 0xFFFFFFFF,
];

/// Around the ends of encode's range.
pub fn fields(kind: Kind) -> Vec<i32> {
    let range = kind.fields();
    let (low, high) = (*range.start(), *range.end());
    let near = [low - 1, low, low + 1, high - 1, high, high + 1];
    let middle = [low / 2 + high / 2, low / 2 + high / 2 + 1];
    tidy([&near[..], &middle, &LIMITS, &WILD].concat())
}

/// What to give an operand that is resolved at a base.
pub fn operands(kind: Kind, base: u32) -> Vec<i32> {
    match kind {
        Kind::Immediate | Kind::Cell | Kind::Bit | Kind::Register => fields(kind),
        Kind::Short | Kind::Wrapping | Kind::Page | Kind::Whole => {
            tidy([&addresses(base)[..], &LIMITS, &WILD].concat())
        }
    }
}

/// Addresses at the limits of a short offset from the base, at its page's borders and at memory's.
pub fn addresses(base: u32) -> Vec<i32> {
    let base = base as i32;
    let page = base & !4_095;
    let short = [-129, -128, -127, -1, 0, 1, 126, 127, 128].map(|offset| base.wrapping_add(offset));
    let borders = [-1, 0, 4_095, 4_096].map(|offset| page.wrapping_add(offset));
    tidy([&short[..], &borders, &[-1, 0, 1, 65_535, 65_536]].concat())
}

/// Addresses that are a short offset from the base modulo 65,536, or nearly, the ends of memory, and where the
/// difference turns from the highest to the lowest.
pub fn wrapping_addresses(base: u32) -> Vec<i32> {
    let base = base as i32;
    let around = |middle: i32, away: i32| (-away..=away).map(move |by| middle.wrapping_add(by));
    let turns = [0, -65_536, 65_536].map(|turn| base.wrapping_add(turn));
    let halves = [-32_768, 32_768].map(|half| base.wrapping_add(half));
    let short = turns.into_iter().flat_map(|middle| around(middle, 130));
    let others = [&halves[..], &[0, 65_535]].concat().into_iter();
    let others = others.flat_map(|middle| around(middle, 3));
    tidy(short.chain(others).collect())
}

fn tidy(mut list: Vec<i32>) -> Vec<i32> {
    list.sort_unstable();
    list.dedup();
    list
}

/// Calls `visit` with every choice of one number from each list, and 0 past the lists.
pub fn products(lists: &[Vec<i32>], visit: &mut impl FnMut([i32; 3])) {
    fn choose(lists: &[Vec<i32>], at: usize, chosen: [i32; 3], visit: &mut impl FnMut([i32; 3])) {
        if at == lists.len() {
            return visit(chosen);
        }
        for number in &lists[at] {
            let mut more = chosen;
            more[at] = *number;
            choose(lists, at + 1, more, visit);
        }
    }
    choose(lists, 0, [0; 3], visit);
}
