//! Work in blocks from lengths alone, by rule 15.2.

/// L, and the CMAC of the zero block.
pub const KEY: u64 = 2;

/// The blocks of a string; an empty one has one.
pub fn string(len: usize) -> u64 {
    key_stream(len).max(1)
}

/// The blocks of header strings.
pub fn strings(lens: &[u32]) -> u64 {
    lens.iter().map(|&len| string(len as usize)).sum()
}

/// The blocks of key stream that n bytes begin.
pub fn key_stream(n: usize) -> u64 {
    n.div_ceil(16) as u64
}

/// What a plaintext of n bytes takes behind its header strings.
pub fn plain(n: usize) -> u64 {
    string(n) + key_stream(n)
}

/// What sealing n bytes takes, or opening what that gives.
pub fn whole(lens: &[u32], n: usize) -> u64 {
    KEY + strings(lens) + plain(n)
}
