//! Small images that the logs lead through.

use compare::paper::{Mode, tracer};

/// Document 01's example: a Br to 4, an Inc, a Bz to 0, and a Ret at 7.
pub const EXAMPLE: [u8; 8] = [0x01, 0x02, 0x00, 0x41, 0x64, 0x80, 0xF9, 0xA0];

/// A Callf to 6 and a Br back to 0; at 6 an Inc and a Ret.
pub const CALLING: [u8; 8] = [0x20, 0x00, 0x06, 0x01, 0xFB, 0x41, 0x64, 0xA0];

/// A Nop and a Br back to 0; at 3 a Nop and a Reti.
pub const INTERRUPTED: [u8; 5] = [0x00, 0x01, 0xFD, 0x00, 0xB0];

/// B8 0D and a Jmpf to 6; at 5 data; at 6 a Nop and a Ret.
pub const FLASHING: [u8; 8] = [0xB8, 0x0D, 0x21, 0x00, 0x06, 0x41, 0x00, 0xA0];

/// A Jmp to 4, a Jmpf to 8, a Brf to C, a Br to F, a Ret at F; the bytes between them are data.
pub const JUMPING: [u8; 16] = [
    0x28, 0x04, 0x41, 0x41, 0x21, 0x00, 0x08, 0x41, 0x11, 0x02, 0x00, 0x41, 0x01, 0x01, 0x41, 0xA0,
];

/// A Call to 9, a Callr to A, a Bz to B, a Nop and a Ret; at 9 a Jmp to 7, whose second byte is an instruction too; a Ret at B.
pub const BRANCHING: [u8; 12] = [
    0x08, 0x09, 0x10, 0x06, 0x00, 0x80, 0x04, 0x00, 0xA0, 0x28, 0x07, 0xA0,
];

/// Code at the beginning of an image of the longest length, and code at its end.
pub fn ring(low: &[u8], high: &[u8]) -> Vec<u8> {
    let mut image = vec![0; tracer::LONGEST];
    image[..low.len()].copy_from_slice(low);
    let from = image.len() - high.len();
    image[from..].copy_from_slice(high);
    image
}

pub const MODES: [Mode; 2] = [Mode::Unwrapped, Mode::Wrapping];

pub fn word(mode: Mode) -> &'static str {
    match mode {
        Mode::Unwrapped => "unwrapped",
        Mode::Wrapping => "wrapping",
    }
}
