//! AES-SIV as RFC 5297 has it, plainly, over the cipher that counts its calls.

use crate::aes::{self, Cipher};
use crate::counter;
use shared::library::TAG_LEN;
use shared::mac::{Block, Mac};

/// What a key and header strings come to.
pub struct Reference {
    mac: Mac<Cipher>,
    ctr: Cipher,
    d: Block,
}

impl Reference {
    pub fn new(key: &[u8], strings: &[&[u8]]) -> Reference {
        let cipher = |half: &[u8]| Cipher::new(half.len() as u64, &aes::round_keys(half));
        let (mac_key, ctr_key) = key.split_at(key.len() / 2);
        let mac = Mac::new(cipher(mac_key));
        let d = mac.header_result(strings);
        Reference { mac, ctr: cipher(ctr_key), d }
    }

    /// With header strings more.
    pub fn extended(self, strings: &[&[u8]]) -> Reference {
        Reference { d: self.mac.extended(self.d, strings), ..self }
    }

    fn tag(&self, plain: &[u8]) -> Block {
        self.mac.tag(self.d, [0; 16], plain)
    }

    fn xored(&self, text: &[u8], tag: Block) -> Vec<u8> {
        counter::xored(text, tag, 0, |blocks| self.ctr.blocks(blocks))
    }

    pub fn seal(&self, plain: &[u8]) -> Vec<u8> {
        let tag = self.tag(plain);
        [&tag[..], &self.xored(plain, tag)].concat()
    }

    /// The plaintext, or none for a forged string.
    pub fn open(&self, sealed: &[u8]) -> Option<Vec<u8>> {
        let (tag, text) = sealed.split_at(TAG_LEN);
        let plain = self.xored(text, tag.try_into().unwrap());
        (self.tag(&plain) == tag).then_some(plain)
    }
}
