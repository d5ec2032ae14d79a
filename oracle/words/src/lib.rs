//! Words as the text of the fixed lists: docs/LISTS.md.

use std::fmt::Write;

/// Words of eight hexadecimal digits with a space between them and a line end after the last.
pub fn line<'a>(text: &mut String, words: impl Iterator<Item = &'a u32>) {
    let mut end = "";
    for word in words {
        write!(text, "{end}{word:08X}").expect("a string takes all");
        end = " ";
    }
    text.push('\n');
}

/// A float that is handed in: its bits.
pub fn given(x: f32) -> u32 {
    x.to_bits()
}

/// A float that is answered: its bits, and for every NaN 7FC00000.
pub fn answered(x: f32) -> u32 {
    if x.is_nan() { 0x7FC0_0000 } else { x.to_bits() }
}

/// Bytes as two words, the higher first: the 64-bit hash FNV-1a.
pub fn digest<'a>(bytes: impl IntoIterator<Item = &'a u8>) -> [u32; 2] {
    let mut hash = 0xCBF2_9CE4_8422_2325_u64;
    for &byte in bytes {
        hash = (hash ^ byte as u64).wrapping_mul(0x0100_0000_01B3);
    }
    [(hash >> 32) as u32, hash as u32]
}

/// Four bytes to a word, the first in the highest digits; 0 past the last.
pub fn packed(bytes: &[u8]) -> impl Iterator<Item = u32> {
    bytes.chunks(4).map(|four| {
        let mut all = [0; 4];
        all[..four.len()].copy_from_slice(four);
        u32::from_be_bytes(all)
    })
}
