//! CMAC, and RFC 5297's D and V, over any cipher of blocks.

pub type Block = [u8; 16];

/// The first 16 bytes of two strings.
pub(crate) fn xor(a: &[u8], b: &[u8]) -> Block {
    std::array::from_fn(|i| a[i] ^ b[i])
}

/// RFC 5297, section 2.3.
fn double(block: Block) -> Block {
    let shifted = u128::from_be_bytes(block) << 1;
    (shifted ^ if block[0] & 0x80 != 0 { 0x87 } else { 0 }).to_be_bytes()
}

/// A last block of CMAC: a short one is padded.
pub(crate) fn pad(part: &[u8]) -> Block {
    std::array::from_fn(|i| if i < part.len() { part[i] } else if i == part.len() { 0x80 } else { 0 })
}

/// The subkey for a last block: K1 for a full one, K2 for a short one.
pub(crate) fn subkey(l: Block, last: &[u8]) -> Block {
    let k1 = double(l);
    if last.len() == 16 { k1 } else { double(k1) }
}

/// Where the last block of a text starts; an empty text has an empty last block.
pub(crate) fn last_block(len: usize) -> usize {
    len.saturating_sub(1) / 16 * 16
}

/// A cipher of blocks under a key.
pub trait BlockCipher {
    fn block(&self, block: Block) -> Block;

    /// CMAC's chain over whole blocks more.
    fn chain(&self, chain: Block, blocks: &[u8]) -> Block {
        blocks.chunks(16).fold(chain, |chain, block| self.block(xor(&chain, block)))
    }
}

/// A cipher for CMAC, and L, the cipher of the zero block, which is made once.
pub struct Mac<C> {
    pub cipher: C,
    pub l: Block,
}

impl<C: BlockCipher> Mac<C> {
    pub fn new(cipher: C) -> Mac<C> {
        let l = cipher.block([0; 16]);
        Mac { cipher, l }
    }

    /// CMAC of a text, where the chain is over what came before the text.
    fn cmac(&self, chain: Block, text: &[u8]) -> Block {
        let (front, last) = text.split_at(last_block(text.len()));
        let chain = self.cipher.chain(chain, front);
        self.cipher.block(xor(&xor(&pad(last), &subkey(self.l, last)), &chain))
    }

    /// D over the header strings.
    pub fn header_result(&self, strings: &[&[u8]]) -> Block {
        self.extended(self.cmac([0; 16], &[0; 16]), strings)
    }

    /// D over header strings more.
    pub fn extended(&self, d: Block, strings: &[&[u8]]) -> Block {
        strings.iter().fold(d, |d, string| xor(&double(d), &self.cmac([0; 16], string)))
    }

    /// V: CMAC goes on from the chain over a plaintext's end of 16 bytes or more, or all of it, with D at its end.
    pub fn tag(&self, d: Block, chain: Block, end: &[u8]) -> Block {
        let text = match end.len().checked_sub(16) {
            None => xor(&double(d), &pad(end)).to_vec(),
            Some(at) => [&end[..at], &xor(&end[at..], &d)].concat(),
        };
        self.cmac(chain, &text)
    }
}
