//! Bits of a payload, byte after byte, highest bit first; past the end they read as zero.

/// The bit at a position.
pub fn bit(payload: &[u8], position: usize) -> u32 {
    match payload.get(position / 8) {
        Some(byte) => u32::from(byte >> (7 - position % 8) & 1),
        None => 0,
    }
}

/// The window of `count` bits at a position, as a number.
pub fn window(payload: &[u8], position: usize, count: u32) -> u32 {
    (0..count as usize).fold(0, |value, i| 2 * value + bit(payload, position + i))
}
