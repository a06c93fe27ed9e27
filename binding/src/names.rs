//! The header's names without `PW_`: limits and rooms, and as enums the modes, the marks and the choice of arrivals. Those of refusals are
//! [`Answer`](crate::Answer)'s, and those of forms [`Form`](crate::Form)'s.

macro_rules! names {
    ($($(#[$about:meta])* $name:ident: $type:ty = $value:expr;)*) => {
        $($(#[$about])* pub const $name: $type = $value;)*
        /// All of these with their values, for those who hold them against the header.
        pub const NAMES: &[(&str, u64)] = &[$((stringify!($name), $value)),*];
    };
}

names! {
    /// The version of the header that this crate was written to.
    VERSION: u32 = 6;
    /// The values of an answer.
    VALUES: usize = 5;
    /// The longest image.
    IMAGE_LIMIT: usize = 65_536;
    HIGHEST_ADDRESS: u32 = 65_535;
    HIGHEST_BASE: u32 = 65_536;
    /// The longest instruction.
    INSTRUCTION_LENGTH: usize = 3;
    /// The longest run of data.
    RUN_LENGTH: usize = 16;
    MOST_OVERLAPS: usize = 3;
    /// The bits of a map's word.
    WORD_BITS: usize = 64;
    /// The numbers of a [`Record`](crate::Record), and which is which.
    REPLAY_WORDS: usize = 7;
    REPLAY_LINES: usize = 0;
    REPLAY_INTERRUPTS: usize = 1;
    REPLAY_FREE: usize = 2;
    REPLAY_LAST: usize = 3;
    REPLAY_REFUSAL: usize = 4;
    REPLAY_HELD: usize = 5;
    REPLAY_PART: usize = 6;
    /// The numbers of a [`Place`](crate::Place), and which is which.
    PLACE_WORDS: usize = 4;
    PLACE_AT: usize = 0;
    PLACE_LINE: usize = 1;
    PLACE_LAST: usize = 2;
    PLACE_LETTER: usize = 3;
    /// The letter that is answered where no line is left.
    NO_LINE: i64 = 0;
    /// Room for every listing without arrivals, for each byte of the image.
    LISTING_ROOM: usize = 60;
    /// The same with arrivals.
    ARRIVALS_ROOM: usize = 77;
    /// The longest `I` line, its byte 10 counted.
    CODE_LINE_MOST: usize = 31;
    /// What the listing program takes: entries, bytes on a line, bytes in all.
    MOST_ENTRIES: usize = 256;
    MOST_IN_LINE: usize = 32;
    MOST_BYTES: usize = 16_384;
    /// Room for all that it prints.
    PRINTED_ROOM: usize = 983_040;
    /// Room for all that `unlist` prints.
    UNLISTED_ROOM: usize = 133_120;
    /// The longest name of an image in a term.
    LONGEST_NAME: usize = 32;
    /// How many forms there are.
    FORMS: usize = 70;
}

/// The numbers of the place of a text's first line.
pub const PLACE_START: [u64; PLACE_WORDS] = [0, 1, 0, 0];

/// What becomes of a short branch, and of the position after an instruction, at the ends of memory. What is traced in one mode is to be
/// looked at in the same.
#[derive(Clone, Copy, PartialEq, Eq, Hash, Debug)]
#[repr(u32)]
pub enum Mode {
    Unwrapped = 0,
    Wrapping = 1,
}

/// Whether a listing has `A` lines.
#[derive(Clone, Copy, PartialEq, Eq, Hash, Debug)]
#[repr(u32)]
pub enum Arrivals {
    Declined = 0,
    Chosen = 1,
}

/// What marks say of a position. Marks are lent as bytes: `Mark::Traced as u8` is one, and [`Mark::of`] reads one.
#[derive(Clone, Copy, PartialEq, Eq, Hash, Debug)]
#[repr(u8)]
pub enum Mark {
    Untouched = 0,
    Waiting = 1,
    Traced = 2,
    /// A traced `jmpf` whose target is not followed.
    Flash = 3,
    /// Kept off the trace.
    Pinned = 4,
}

impl Mark {
    pub const ALL: [Mark; 5] = [
        Mark::Untouched,
        Mark::Waiting,
        Mark::Traced,
        Mark::Flash,
        Mark::Pinned,
    ];

    /// None where the byte is damaged.
    pub fn of(byte: u8) -> Option<Mark> {
        Mark::ALL.get(usize::from(byte)).copied()
    }
}
