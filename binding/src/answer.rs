//! What a call answers: a number with five values; and what they say where they refuse.

use crate::{Mark, VALUES};
use std::fmt;

/// A call's number, 0 or that of a refusal, and its values; those that are not used are 0.
#[derive(Clone, Copy, PartialEq, Eq)]
pub struct Answer {
    pub number: u32,
    pub values: [i64; VALUES],
}

macro_rules! numbers {
    ($($name:ident = $value:expr;)*) => {
        impl Answer {
            $(pub const $name: u32 = $value;)*
            /// All numbers by their names, for those who hold them against the header.
            pub const NAMES: &[(&str, u32)] = &[$((stringify!($name), $value)),*];
        }
    };
}

numbers! {
    DONE = 0;
    LONG_IMAGE = 1;
    SHORT_MARKS = 2;
    SHORT_ORDER = 3;
    NOT_WAITING = 4;
    CUT_OFF = 5;
    DAMAGED = 6;
    UNFIT = 7;
    NO_ADDRESS = 8;
    TOO_FAR = 9;
    OTHER_PAGE = 10;
    NO_ROOM = 11;
    NOTHING = 12;
    MALFORMED_INPUT = 13;
    PAST_MEMORY = 14;
    MALFORMED_LINE = 15;
    LINE_PAST_END = 16;
    OUTSIDE = 17;
    MALFORMED_LOG = 18;
    NOT_TRACED = 19;
    FORBIDDEN_MOVE = 20;
    COUNT_FULL = 21;
    SUM_FULL = 22;
}

impl Answer {
    /// The values that are not given are 0.
    #[inline]
    pub fn new(number: u32, given: &[i64]) -> Answer {
        let mut values = [0; VALUES];
        values[..given.len()].copy_from_slice(given);
        Answer { number, values }
    }

    #[inline]
    pub fn done(&self) -> bool {
        self.number == Answer::DONE
    }

    /// The values, where it is no refusal.
    #[inline]
    pub fn told(self) -> Result<[i64; VALUES], Refusal> {
        match self.number {
            Answer::DONE => Ok(self.values),
            _ => Err(self.refusal()),
        }
    }

    /// The first value, where it is no refusal: how many.
    #[inline]
    pub(crate) fn count(self) -> Result<usize, Refusal> {
        self.told().map(|[count, ..]| count as usize)
    }

    /// By its number and values, as the header has them.
    fn refusal(self) -> Refusal {
        let [a, b, c, ..] = self.values;
        let (length, line, position) = (a as usize, a as u64, a as u32);
        match self.number {
            Answer::LONG_IMAGE => Refusal::LongImage { length },
            Answer::SHORT_MARKS => Refusal::ShortMarks { length },
            Answer::SHORT_ORDER => Refusal::ShortOrder { length },
            Answer::NOT_WAITING => Refusal::NotWaiting {
                mark: Mark::of(a as u8).expect("a mark that is not damaged"),
            },
            Answer::CUT_OFF => Refusal::CutOff {
                position,
                first: b as u8,
                missing: c as u8,
            },
            Answer::DAMAGED => Refusal::Damaged { position },
            Answer::UNFIT => Refusal::Unfit {
                operand: a as u8,
                number: b as i32,
            },
            Answer::NO_ADDRESS => Refusal::NoAddress { number: a as i32 },
            Answer::TOO_FAR => Refusal::TooFar { offset: a as i32 },
            Answer::OTHER_PAGE => Refusal::OtherPage {
                base: a as u8,
                address: b as u8,
            },
            Answer::NO_ROOM => Refusal::NoRoom { needed: length },
            Answer::NOTHING => Refusal::Nothing,
            Answer::MALFORMED_INPUT => Refusal::MalformedInput { line },
            Answer::PAST_MEMORY => Refusal::PastMemory { position: a as u64 },
            Answer::MALFORMED_LINE => Refusal::MalformedLine { line },
            Answer::LINE_PAST_END => Refusal::LinePastEnd { line },
            Answer::OUTSIDE => Refusal::Outside { position },
            Answer::MALFORMED_LOG => Refusal::MalformedLog { line },
            Answer::NOT_TRACED => Refusal::NotTraced { line },
            Answer::FORBIDDEN_MOVE => Refusal::ForbiddenMove { line },
            Answer::COUNT_FULL => Refusal::CountFull { line },
            Answer::SUM_FULL => Refusal::SumFull,
            other => unreachable!("no refusal has the number {other}"),
        }
    }
}

impl fmt::Debug for Answer {
    fn fmt(&self, f: &mut fmt::Formatter) -> fmt::Result {
        write!(f, "{} {:?}", self.number, self.values)
    }
}

/// A refusal with its values. [`Refusal::SumFull`] is answered by no call: `report_text` prints its number.
#[derive(Clone, Copy, PartialEq, Eq, Debug)]
#[repr(u32)]
pub enum Refusal {
    LongImage {
        length: usize,
    } = Answer::LONG_IMAGE,
    ShortMarks {
        length: usize,
    } = Answer::SHORT_MARKS,
    ShortOrder {
        length: usize,
    } = Answer::SHORT_ORDER,
    NotWaiting {
        mark: Mark,
    } = Answer::NOT_WAITING,
    /// By the end of the image, or of the bytes.
    CutOff {
        position: u32,
        first: u8,
        missing: u8,
    } = Answer::CUT_OFF,
    /// A mark.
    Damaged {
        position: u32,
    } = Answer::DAMAGED,
    /// Operands are counted from 1.
    Unfit {
        operand: u8,
        number: i32,
    } = Answer::UNFIT,
    NoAddress {
        number: i32,
    } = Answer::NO_ADDRESS,
    TooFar {
        offset: i32,
    } = Answer::TOO_FAR,
    /// The top four bits of each.
    OtherPage {
        base: u8,
        address: u8,
    } = Answer::OTHER_PAGE,
    /// Bytes, positions, words or counts.
    NoRoom {
        needed: usize,
    } = Answer::NO_ROOM,
    Nothing = Answer::NOTHING,
    /// Lines are counted from 1.
    MalformedInput {
        line: u64,
    } = Answer::MALFORMED_INPUT,
    /// The base, or the position after the instruction.
    PastMemory {
        position: u64,
    } = Answer::PAST_MEMORY,
    MalformedLine {
        line: u64,
    } = Answer::MALFORMED_LINE,
    LinePastEnd {
        line: u64,
    } = Answer::LINE_PAST_END,
    /// The position, or the stretch's start.
    Outside {
        position: u32,
    } = Answer::OUTSIDE,
    MalformedLog {
        line: u64,
    } = Answer::MALFORMED_LOG,
    NotTraced {
        line: u64,
    } = Answer::NOT_TRACED,
    ForbiddenMove {
        line: u64,
    } = Answer::FORBIDDEN_MOVE,
    CountFull {
        line: u64,
    } = Answer::COUNT_FULL,
    SumFull = Answer::SUM_FULL,
}

impl Refusal {
    /// The document's number.
    pub fn number(&self) -> u32 {
        // SAFETY: an enum of `repr(u32)` begins with its number.
        unsafe { *(self as *const Refusal).cast::<u32>() }
    }
}

impl fmt::Display for Refusal {
    fn fmt(&self, f: &mut fmt::Formatter) -> fmt::Result {
        write!(f, "refusal {}: ", self.number())?;
        match *self {
            Refusal::LongImage { length } => write!(f, "the image is too long, {length} bytes"),
            Refusal::ShortMarks { length } => write!(f, "the marks are too short, {length}"),
            Refusal::ShortOrder { length } => write!(f, "the order list is too short, {length}"),
            Refusal::NotWaiting { mark } => write!(f, "not waiting but {mark:?}"),
            Refusal::CutOff {
                position,
                first,
                missing,
            } => {
                write!(
                    f,
                    "{first:02X} at {position:04X} is cut off, {missing} missing"
                )
            }
            Refusal::Damaged { position } => write!(f, "the mark at {position:04X} is damaged"),
            Refusal::Unfit { operand, number } => write!(f, "operand {operand} cannot be {number}"),
            Refusal::NoAddress { number } => write!(f, "{number} is not an address"),
            Refusal::TooFar { offset } => write!(f, "too far, by {offset}"),
            Refusal::OtherPage { base, address } => {
                write!(f, "page {address:X} from page {base:X}")
            }
            Refusal::NoRoom { needed } => write!(f, "no room, {needed} needed"),
            Refusal::Nothing => write!(f, "nothing to decode"),
            Refusal::MalformedInput { line } => write!(f, "line {line} of the input is malformed"),
            Refusal::PastMemory { position } => write!(f, "{position} is past memory"),
            Refusal::MalformedLine { line } => write!(f, "line {line} is malformed"),
            Refusal::LinePastEnd { line } => write!(f, "line {line} reaches past the end"),
            Refusal::Outside { position } => write!(f, "{position} is outside, or not traced"),
            Refusal::MalformedLog { line } => write!(f, "line {line} of the log is malformed"),
            Refusal::NotTraced { line } => write!(f, "line {line} of the log is not traced"),
            Refusal::ForbiddenMove { line } => write!(f, "the move to line {line} is not allowed"),
            Refusal::CountFull { line } => write!(f, "the count of line {line} is full"),
            Refusal::SumFull => write!(f, "a sum is full"),
        }
    }
}

impl std::error::Error for Refusal {}
