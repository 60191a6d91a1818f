//! AES below the modes, by libcrypto: the round keys of a key, and the cipher under any
//! round keys, whose calls are counted.

use shared::check;
use shared::mac::{Block, BlockCipher};
use std::ffi::c_int;
use std::sync::atomic::{AtomicU64, Ordering};

/// libcrypto's AES_KEY. The round keys stand in it as in FIPS 197.
#[repr(C, align(4))]
struct Schedule {
    round_keys: [u8; 240],
    rounds: c_int,
}

unsafe extern "C" {
    fn AES_set_encrypt_key(key: *const u8, bits: c_int, schedule: *mut Schedule) -> c_int;
    fn AES_encrypt(input: *const u8, output: *mut u8, schedule: *const Schedule);
}

/// A key's round keys, and zeros past its own rounds.
pub fn round_keys(key: &[u8]) -> [u8; 240] {
    let mut schedule = Schedule { round_keys: [0; 240], rounds: 0 };
    let error = unsafe { AES_set_encrypt_key(key.as_ptr(), 8 * key.len() as c_int, &mut schedule) };
    if error != 0 || !schedule.round_keys.starts_with(key) {
        check::fail("libcrypto's AES_set_encrypt_key failed, or has round keys in another order than FIPS 197".to_string());
    }
    schedule.round_keys
}

/// How many blocks went through the cipher.
static BLOCKS: AtomicU64 = AtomicU64::new(0);

/// What a function gives, and how many blocks went through the cipher meanwhile.
pub fn counted<T>(function: impl FnOnce() -> T) -> (T, u64) {
    let before = BLOCKS.load(Ordering::Relaxed);
    let gives = function();
    (gives, BLOCKS.load(Ordering::Relaxed) - before)
}

pub struct Cipher(Schedule);

impl Cipher {
    /// The cipher for keys of `width` bytes under round keys that need be no key's.
    pub fn new(width: u64, round_keys: &[u8]) -> Cipher {
        Cipher(Schedule { round_keys: round_keys.try_into().unwrap(), rounds: (width / 4 + 6) as c_int })
    }

    /// The cipher on each block of a string.
    pub fn blocks(&self, blocks: &[u8]) -> Vec<u8> {
        blocks.chunks(16).flat_map(|block| self.block(block.try_into().unwrap())).collect()
    }
}

impl BlockCipher for Cipher {
    fn block(&self, block: Block) -> Block {
        let mut out = [0; 16];
        BLOCKS.fetch_add(1, Ordering::Relaxed);
        unsafe { AES_encrypt(block.as_ptr(), out.as_mut_ptr(), &self.0) };
        out
    }
}
