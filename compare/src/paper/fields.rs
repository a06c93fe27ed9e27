//! Document 01's places of the operands in the bytes, written out a second time.

use super::{Kind, flow, kinds};
use crate::original;

/// The fields of a whole instruction, in the order shown.
pub fn fields(bytes: &[u8]) -> Vec<i64> {
    let form = original::form(bytes[0]);
    let kinds = kinds(form);
    let cell_bit = if kinds.contains(&Kind::Bit) { 4 } else { 0 };
    let last = bytes[bytes.len() - 1];
    let field = |kind: &Kind| match kind {
        Kind::Immediate if original::name(form).starts_with("Mov") => i64::from(last),
        Kind::Immediate => i64::from(bytes[1]),
        Kind::Cell => i64::from(bytes[0] >> cell_bit & 1) * 256 + i64::from(bytes[1]),
        Kind::Bit => i64::from(bytes[0] & 7),
        Kind::Register => i64::from(bytes[0] & 3),
        address => flow::field(*address, bytes),
    };
    kinds.iter().map(field).collect()
}
