//! Counter mode, by rules 7.2 and 7.3.

use shared::mac::Block;
use std::ops::Range;

/// The counter blocks of a tag with these numbers, one behind the other.
pub fn blocks(tag: Block, numbers: Range<usize>) -> Vec<u8> {
    // The top bits of bytes 8 and 12, cleared.
    let q = u128::from_be_bytes(tag) & !(1 << 63 | 1 << 31);
    numbers.flat_map(|i| q.wrapping_add(i as u128).to_be_bytes()).collect()
}

/// A piece xored with the key stream of a tag from byte `place` of it on. `cipher` enciphers a string of whole blocks.
pub fn xored(piece: &[u8], tag: Block, place: usize, cipher: impl FnOnce(&[u8]) -> Vec<u8>) -> Vec<u8> {
    let stream = cipher(&blocks(tag, place / 16..(place + piece.len()).div_ceil(16)));
    piece.iter().zip(&stream[place % 16..]).map(|(a, b)| a ^ b).collect()
}
