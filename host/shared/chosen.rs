//! Sealed strings with a chosen tag, by one who holds the key. S2V runs backwards: the cipher's inverse
//! on the tag gives what the last block must bring. So a tag with any end is there at once, where a
//! search for four bytes would take hours.

use crate::library::TAG_LEN;
use crate::mac::{last_block, pad, subkey, xor, BlockCipher, Mac};
use crate::peers::Libcrypto;
use crate::random::Random;

/// How many bytes at a tag's end are chosen, and out of how many bits there the counter then carries. Past 31 bits the
/// carry goes into the bit that Q clears, set or not in the tag.
pub const CARRIES: [(usize, u32); 5] = [(1, 8), (2, 16), (3, 24), (4, 31), (4, 32)];

/// The end of a tag from which the counter carries in block `at`.
pub fn carrying((count, bits): (usize, u32), at: u64) -> Vec<u8> {
    (1u64 << bits).wrapping_sub(at).to_be_bytes()[8 - count..].to_vec()
}

/// A random tag with that end.
pub fn tag(random: &mut Random, end: &[u8]) -> [u8; TAG_LEN] {
    let mut tag: [u8; TAG_LEN] = random.bytes(TAG_LEN).try_into().unwrap();
    tag[TAG_LEN - end.len()..].copy_from_slice(end);
    tag
}

/// Changes one block of `text`, which has at least 32 bytes, so that its tag is `tag`.
pub fn plaintext(aes: &Libcrypto, key: &[u8], header: &[&[u8]], tag: &[u8; TAG_LEN], mut text: Vec<u8>) -> Vec<u8> {
    let mac = Mac::new(aes.under(&key[..key.len() / 2]));

    // First the string that CMAC is taken of: its last block is `at..`.
    let at = last_block(text.len());
    let wanted = xor(&mac.cipher.inverse(*tag), &subkey(mac.l, &text[at..]));
    if text.len() - at == 16 {
        let block = xor(&wanted, &mac.cipher.chain([0; 16], &text[..at]));
        text[at..].copy_from_slice(&block);
    } else {
        let chained = xor(&wanted, &pad(&text[at..]));
        let block = xor(&mac.cipher.inverse(chained), &mac.cipher.chain([0; 16], &text[..at - 16]));
        text[at - 16..at].copy_from_slice(&block);
    }

    // The plaintext is that string with D xored onto its end.
    let end = text.len() - 16;
    let plain_end = xor(&text[end..], &mac.header_result(header));
    text[end..].copy_from_slice(&plain_end);
    text
}

/// The text enciphered for any tag, right or wrong: opening finds `plain` behind it, and has only the tag to judge by.
pub fn sealed_under(aes: &Libcrypto, key: &[u8], tag: &[u8; TAG_LEN], plain: &[u8]) -> Vec<u8> {
    let mut q = *tag;
    q[8] &= 0x7f;
    q[12] &= 0x7f;
    [&tag[..], &aes.ctr(&key[key.len() / 2..], &q, plain)].concat()
}
