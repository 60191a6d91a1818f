//! libkinphlor.a as safe Rust.

type Raw = unsafe extern "C" fn(
    *const u8, usize, *const u8, usize, u32, u32, *const u8, usize, *mut u8, usize, *mut u8, usize,
) -> u64;

#[rustfmt::skip]
unsafe extern "C" {
    fn kinphlor_seal(key: *const u8, key_len: usize, header: *const u8, header_len: usize, ad_len: u32, nonce_len: u32,
        input: *const u8, input_len: usize, output: *mut u8, output_len: usize, scratch: *mut u8, scratch_len: usize) -> u64;
    fn kinphlor_open(key: *const u8, key_len: usize, header: *const u8, header_len: usize, ad_len: u32, nonce_len: u32,
        input: *const u8, input_len: usize, output: *mut u8, output_len: usize, scratch: *mut u8, scratch_len: usize) -> u64;
    fn kinphlor_open_ring(key_len: usize, ring: *const u8, ring_len: usize, header: *const u8, header_len: usize, ad_len: u32,
        nonce_len: u32, input: *const u8, input_len: usize, output: *mut u8, output_len: usize, scratch: *mut u8,
        scratch_len: usize) -> u64;
    fn kinphlor_planned_work(ad_len: u32, nonce_len: u32, n: usize) -> u64;
    fn kinphlor_worst_header(header_len: usize, count: usize, least: usize, lens: *mut u32) -> u64;
}

/// The longest plaintext.
pub const LIMIT: usize = 1_048_576;
pub const TAG_LEN: usize = 16;
pub const KEY_LENS: [usize; 3] = [32, 48, 64];
/// The most keys in a ring.
pub const RING_MAX: usize = 4;
/// The most header strings, and the most header bytes that are planned for.
pub const STRINGS_MAX: usize = 126;
pub const HEADER_MAX: usize = 1_048_576;

#[derive(Clone, Copy, PartialEq, Debug)]
pub enum Function {
    Seal,
    Open,
    /// Under a ring of keys that are said to have this length.
    OpenRing(usize),
}

/// A whole call's number, slot and length. Without a ring the slot is 0.
pub type Answer = (u64, u64, u64);

/// What a call reads; a ring stands in the key's place.
#[derive(Clone, Copy)]
pub struct Args<'a> {
    pub key: &'a [u8],
    pub header: &'a [u8],
    pub ad_len: u32,
    pub nonce_len: u32,
    pub input: &'a [u8],
}

// In the calls below slices are valid for their lengths, never null, and those that are written overlap no other.

impl Function {
    /// The plaintext's length for an input of that length.
    pub fn plain_len(self, input_len: usize) -> usize {
        match self {
            Function::Seal => input_len,
            Function::Open | Function::OpenRing(_) => input_len.saturating_sub(TAG_LEN),
        }
    }

    pub fn output_need(self, input_len: usize) -> usize {
        match self {
            Function::Seal => input_len + TAG_LEN,
            Function::Open | Function::OpenRing(_) => self.plain_len(input_len),
        }
    }

    pub fn scratch_need(self, input_len: usize) -> usize {
        self.plain_len(input_len).max(16)
    }

    pub fn call(self, args: &Args, output: &mut [u8], scratch: &mut [u8]) -> Answer {
        let raw: Raw = match self {
            Function::Seal => kinphlor_seal,
            Function::Open => kinphlor_open,
            Function::OpenRing(key_len) => return open_ring(key_len, args, output, scratch),
        };
        let Args { key, header, ad_len, nonce_len, input } = *args;
        answer(unsafe {
            raw(
                key.as_ptr(), key.len(), header.as_ptr(), header.len(), ad_len, nonce_len, input.as_ptr(), input.len(),
                output.as_mut_ptr(), output.len(), scratch.as_mut_ptr(), scratch.len(),
            )
        })
    }
}

fn open_ring(key_len: usize, args: &Args, output: &mut [u8], scratch: &mut [u8]) -> Answer {
    let Args { key: ring, header, ad_len, nonce_len, input } = *args;
    answer(unsafe {
        kinphlor_open_ring(
            key_len, ring.as_ptr(), ring.len(), header.as_ptr(), header.len(), ad_len, nonce_len, input.as_ptr(), input.len(),
            output.as_mut_ptr(), output.len(), scratch.as_mut_ptr(), scratch.len(),
        )
    })
}

pub fn planned_work(ad_len: u32, nonce_len: u32, n: usize) -> u64 {
    unsafe { kinphlor_planned_work(ad_len, nonce_len, n) }
}

/// A number, and the blocks of the list that was written.
pub fn worst_header(header_len: usize, count: usize, least: usize, lens: &mut [u32; STRINGS_MAX]) -> (u64, u64) {
    let result = unsafe { kinphlor_worst_header(header_len, count, least, lens.as_mut_ptr()) };
    (result >> 32, result & 0xffff_ffff)
}

fn answer(result: u64) -> Answer {
    (result >> 32, result >> 28 & 15, result & 0xfff_ffff)
}
