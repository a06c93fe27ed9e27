//! The checksum of POSIX `cksum`.

const POLYNOMIAL: u32 = 0x04C1_1DB7;

/// Of the bytes and then those of their number, the lowest first and as many as it has.
pub fn of(bytes: &[u8]) -> u32 {
    let length = bytes.len().to_le_bytes();
    let used = 8 - bytes.len().leading_zeros() as usize / 8;
    let all = bytes.iter().chain(&length[..used]);
    !all.fold(0, |sum, byte| after_byte(sum, *byte))
}

fn after_byte(sum: u32, byte: u8) -> u32 {
    let mixed = sum ^ u32::from(byte) << 24;
    (0..8).fold(mixed, |sum, _| match sum >> 31 {
        0 => sum << 1,
        _ => sum << 1 ^ POLYNOMIAL,
    })
}
