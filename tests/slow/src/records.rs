//! What the vector programs share: the lines that they print, and the buffers that they lend.

/// A line of numbers.
pub fn row(numbers: &[u64]) -> String {
    let words: Vec<String> = numbers.iter().map(u64::to_string).collect();
    words.join(" ") + "\n"
}

/// The buffer that hardest_vectors and board_vectors have for a record; they lend the first bytes of it.
pub const RECORD_BUFFER: usize = 512;

/// What buffers hold before a call.
pub const STAIN: u8 = 170;

/// The hash that they make of a buffer's bytes, going on from that of the buffers before.
pub fn hash(before: u64, bytes: &[u8]) -> u64 {
    bytes.iter().fold(before, |h, b| (h * 31 + *b as u64 + 1) % 1_000_003)
}
