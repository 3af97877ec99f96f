//! Memory that a call or a case is given: filled, so that what lies past the output shows.

pub const WORD_FILL: u32 = 0xA500_0000;
pub const BYTE_FILL: u8 = 0xA5;

/// So many words, each with its place.
pub fn filled_words(len: usize) -> Vec<u32> {
    (0..len).map(|i| WORD_FILL.wrapping_add(i as u32)).collect()
}

/// So many bytes, each with its place.
pub fn filled_bytes(len: usize) -> Vec<u8> {
    (0..len).map(|i| BYTE_FILL.wrapping_add(i as u8)).collect()
}
