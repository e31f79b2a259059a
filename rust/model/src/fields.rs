//! Big-endian fields.

/// The number in `width` bytes from `at` on.
pub fn get(bytes: &[u8], at: usize, width: usize) -> u64 {
    bytes[at..at + width]
        .iter()
        .fold(0, |number, &byte| number * 256 + u64::from(byte))
}

/// The 32-bit number at `at`.
pub fn get32(bytes: &[u8], at: usize) -> u32 {
    get(bytes, at, 4) as u32
}

/// Write the lowest `width` bytes of a number from `at` on.
pub fn put(bytes: &mut [u8], at: usize, width: usize, number: u64) {
    for i in 0..width {
        bytes[at + i] = (number >> (8 * (width - 1 - i))) as u8;
    }
}

/// Whether any bit of `mask` is set.
pub fn bit(byte: u8, mask: u8) -> bool {
    byte & mask != 0
}
