//! AES-SIV by others: OpenSSL's libcrypto and libgcrypt, through the few C functions that are needed.

use crate::check::fail;
use crate::library::TAG_LEN;
use crate::mac::{Block, BlockCipher};
use std::ffi::{c_char, c_int, c_uint, c_void, CStr};
use std::ptr::{null, null_mut};

/// An implementation of AES-SIV over any list of header strings.
pub trait Peer {
    fn name(&self) -> &'static str;
    fn version(&self) -> String;
    /// What it says of the machine's instructions that it uses.
    fn instructions(&self) -> String;
    /// Whether it can seal and open a plaintext of n bytes.
    fn takes(&self, n: usize) -> bool;
    /// Fills `sealed`, which is 16 bytes longer than `plain`.
    fn seal_to(&self, key: &[u8], header: &[&[u8]], plain: &[u8], sealed: &mut [u8]);
    /// Fills `plain`, which is 16 bytes shorter than `sealed`; false for a forged string.
    fn open_to(&self, key: &[u8], header: &[&[u8]], sealed: &[u8], plain: &mut [u8]) -> bool;

    fn seal(&self, key: &[u8], header: &[&[u8]], plain: &[u8]) -> Vec<u8> {
        let mut sealed = vec![0; TAG_LEN + plain.len()];
        self.seal_to(key, header, plain, &mut sealed);
        sealed
    }

    /// The plaintext, or none for a forged string.
    fn open(&self, key: &[u8], header: &[&[u8]], sealed: &[u8]) -> Option<Vec<u8>> {
        let mut plain = vec![0; sealed.len() - TAG_LEN];
        self.open_to(key, header, sealed, &mut plain).then_some(plain)
    }
}

unsafe extern "C" {
    fn EVP_CIPHER_fetch(library: *mut c_void, name: *const c_char, properties: *const c_char) -> *mut c_void;
    fn EVP_CIPHER_CTX_new() -> *mut c_void;
    fn EVP_CIPHER_CTX_free(ctx: *mut c_void);
    fn EVP_CIPHER_CTX_ctrl(ctx: *mut c_void, what: c_int, number: c_int, pointer: *mut c_void) -> c_int;
    fn EVP_CIPHER_CTX_set_padding(ctx: *mut c_void, on: c_int) -> c_int;
    fn EVP_CipherInit_ex2(
        ctx: *mut c_void, cipher: *const c_void, key: *const u8, iv: *const u8, encrypt: c_int, params: *const c_void,
    ) -> c_int;
    fn EVP_CipherUpdate(ctx: *mut c_void, out: *mut u8, out_len: *mut c_int, input: *const u8, len: c_int) -> c_int;
    fn EVP_CipherFinal_ex(ctx: *mut c_void, out: *mut u8, out_len: *mut c_int) -> c_int;
    fn OpenSSL_version(what: c_int) -> *const c_char;
    fn OPENSSL_info(what: c_int) -> *const c_char;

    fn gcry_check_version(needed: *const c_char) -> *const c_char;
    fn gcry_control(command: c_int, ...) -> c_uint;
    fn gcry_get_config(mode: c_int, what: *const c_char) -> *mut c_char;
    fn gcry_free(memory: *mut c_void);
    fn gcry_cipher_open(handle: *mut *mut c_void, algorithm: c_int, mode: c_int, flags: c_uint) -> c_uint;
    fn gcry_cipher_close(handle: *mut c_void);
    fn gcry_cipher_ctl(handle: *mut c_void, command: c_int, buffer: *mut c_void, len: usize) -> c_uint;
    fn gcry_cipher_setkey(handle: *mut c_void, key: *const u8, len: usize) -> c_uint;
    fn gcry_cipher_authenticate(handle: *mut c_void, string: *const u8, len: usize) -> c_uint;
    fn gcry_cipher_encrypt(handle: *mut c_void, out: *mut u8, out_len: usize, input: *const u8, len: usize) -> c_uint;
    fn gcry_cipher_decrypt(handle: *mut c_void, out: *mut u8, out_len: usize, input: *const u8, len: usize) -> c_uint;
    fn gcry_cipher_gettag(handle: *mut c_void, tag: *mut u8, len: usize) -> c_uint;
}

const EVP_CTRL_AEAD_GET_TAG: c_int = 0x10;
const EVP_CTRL_AEAD_SET_TAG: c_int = 0x11;
const OPENSSL_VERSION: c_int = 0;
const OPENSSL_INFO_CPU_SETTINGS: c_int = 1008;

/// A C string of a peer's, which may be null.
fn text(string: *const c_char) -> String {
    if string.is_null() {
        return String::new();
    }
    unsafe { CStr::from_ptr(string) }.to_string_lossy().trim().to_string()
}

/// The three widths in a table's order, by the bytes of one half of the key.
fn width_index(half: usize) -> usize {
    half / 8 - 2
}

/// OpenSSL. Its AES-SIV answers an empty plaintext with no tag (3.0.19: the last call fails), so empty plaintexts
/// are libgcrypt's alone. Empty header strings are right from 3.0.10 on (CVE-2023-2975); before, it skips them.
pub struct Libcrypto {
    siv: [*mut c_void; 3],
    ecb: [*mut c_void; 3],
    cbc: [*mut c_void; 3],
    ctr: [*mut c_void; 3],
}

/// A cipher context with a key, freed at the end.
struct Evp(*mut c_void);

impl Evp {
    fn new(cipher: *const c_void, key: &[u8], iv: *const u8, encrypt: bool) -> Evp {
        let evp = Evp(unsafe { EVP_CIPHER_CTX_new() });
        let ok = unsafe { EVP_CipherInit_ex2(evp.0, cipher, key.as_ptr(), iv, encrypt as c_int, null()) };
        need("EVP_CipherInit_ex2", ok == 1);
        evp
    }

    /// Bytes in; as many out, or none for a header string.
    fn update(&self, input: &[u8], out: *mut u8) -> bool {
        let mut written = 0;
        unsafe { EVP_CipherUpdate(self.0, out, &mut written, input.as_ptr(), input.len() as c_int) == 1 }
    }

    fn finish(&self) -> bool {
        let (mut rest, mut written) = ([0; 16], 0);
        unsafe { EVP_CipherFinal_ex(self.0, rest.as_mut_ptr(), &mut written) == 1 }
    }

    fn tag(&self, command: c_int, tag: *const u8) -> bool {
        unsafe { EVP_CIPHER_CTX_ctrl(self.0, command, TAG_LEN as c_int, tag as *mut c_void) == 1 }
    }
}

impl Drop for Evp {
    fn drop(&mut self) {
        unsafe { EVP_CIPHER_CTX_free(self.0) }
    }
}

/// Room for a tag and for a text of n bytes.
fn split(sealed: &mut [u8], n: usize) -> (&mut [u8], &mut [u8]) {
    assert_eq!(sealed.len(), TAG_LEN + n);
    sealed.split_at_mut(TAG_LEN)
}

/// A peer that refuses what it should take ends the program.
fn need(what: &str, done: bool) {
    if !done {
        fail(format!("a peer's {what} failed"));
    }
}

impl Libcrypto {
    pub fn new() -> Libcrypto {
        let fetch = |name: &CStr| {
            let cipher = unsafe { EVP_CIPHER_fetch(null_mut(), name.as_ptr(), null()) };
            need(&format!("EVP_CIPHER_fetch of {name:?}"), !cipher.is_null());
            cipher
        };
        Libcrypto {
            siv: [c"AES-128-SIV", c"AES-192-SIV", c"AES-256-SIV"].map(fetch),
            ecb: [c"AES-128-ECB", c"AES-192-ECB", c"AES-256-ECB"].map(fetch),
            cbc: [c"AES-128-CBC", c"AES-192-CBC", c"AES-256-CBC"].map(fetch),
            ctr: [c"AES-128-CTR", c"AES-192-CTR", c"AES-256-CTR"].map(fetch),
        }
    }

    /// The cipher on each block.
    pub fn ecb(&self, key: &[u8], blocks: &[u8]) -> Vec<u8> {
        Libcrypto::aes(&self.ecb, key, &[0; 16], true, blocks)
    }

    /// AES in counter mode from a block on.
    pub fn ctr(&self, key: &[u8], first: &[u8; 16], text: &[u8]) -> Vec<u8> {
        Libcrypto::aes(&self.ctr, key, first, true, text)
    }

    /// The cipher under a key.
    pub fn under<'a>(&'a self, key: &'a [u8]) -> Keyed<'a> {
        Keyed { aes: self, key }
    }

    fn aes(mode: &[*mut c_void; 3], key: &[u8], iv: &[u8; 16], encrypt: bool, text: &[u8]) -> Vec<u8> {
        let evp = Evp::new(mode[width_index(key.len())], key, iv.as_ptr(), encrypt);
        let mut out = vec![0; text.len() + 16];
        need("EVP_CIPHER_CTX_set_padding", unsafe { EVP_CIPHER_CTX_set_padding(evp.0, 0) } == 1);
        need("EVP_CipherUpdate", evp.update(text, out.as_mut_ptr()) && evp.finish());
        out.truncate(text.len());
        out
    }

    fn with_header(&self, key: &[u8], header: &[&[u8]], encrypt: bool) -> Evp {
        let evp = Evp::new(self.siv[width_index(key.len() / 2)], key, null(), encrypt);
        for string in header {
            need("EVP_CipherUpdate of a header string", evp.update(string, null_mut()));
        }
        evp
    }
}

/// libcrypto's AES under a key. Its CBC mode is CMAC's chain, and on one block, from zero, the cipher itself.
pub struct Keyed<'a> {
    aes: &'a Libcrypto,
    key: &'a [u8],
}

impl Keyed<'_> {
    fn cbc(&self, first: Block, encrypt: bool, blocks: &[u8]) -> Vec<u8> {
        Libcrypto::aes(&self.aes.cbc, self.key, &first, encrypt, blocks)
    }

    /// The block that the cipher gives this one for.
    pub fn inverse(&self, block: Block) -> Block {
        self.cbc([0; 16], false, &block).try_into().unwrap()
    }
}

impl BlockCipher for Keyed<'_> {
    fn block(&self, block: Block) -> Block {
        self.chain([0; 16], &block)
    }

    fn chain(&self, chain: Block, blocks: &[u8]) -> Block {
        match blocks.len() {
            0 => chain,
            len => self.cbc(chain, true, blocks)[len - 16..].try_into().unwrap(),
        }
    }
}

impl Peer for Libcrypto {
    fn name(&self) -> &'static str {
        "libcrypto"
    }

    fn version(&self) -> String {
        text(unsafe { OpenSSL_version(OPENSSL_VERSION) })
    }

    fn instructions(&self) -> String {
        text(unsafe { OPENSSL_info(OPENSSL_INFO_CPU_SETTINGS) })
    }

    fn takes(&self, n: usize) -> bool {
        n > 0
    }

    fn seal_to(&self, key: &[u8], header: &[&[u8]], plain: &[u8], sealed: &mut [u8]) {
        let evp = self.with_header(key, header, true);
        let (tag, text) = split(sealed, plain.len());
        need("EVP_CipherUpdate", evp.update(plain, text.as_mut_ptr()) && evp.finish());
        need("EVP_CTRL_AEAD_GET_TAG", evp.tag(EVP_CTRL_AEAD_GET_TAG, tag.as_mut_ptr()));
    }

    fn open_to(&self, key: &[u8], header: &[&[u8]], sealed: &[u8], plain: &mut [u8]) -> bool {
        let evp = self.with_header(key, header, false);
        let (tag, text) = sealed.split_at(TAG_LEN);
        assert_eq!(plain.len(), text.len());
        need("EVP_CTRL_AEAD_SET_TAG", evp.tag(EVP_CTRL_AEAD_SET_TAG, tag.as_ptr()));
        evp.update(text, plain.as_mut_ptr()) && evp.finish()
    }
}

const GCRYCTL_DISABLE_SECMEM: c_int = 37;
const GCRYCTL_INITIALIZATION_FINISHED: c_int = 38;
const GCRYCTL_DISABLE_HWF: c_int = 63;
const GCRYCTL_SET_DECRYPTION_TAG: c_int = 80;
const GCRY_CIPHER_AES: [c_int; 3] = [7, 8, 9];
const GCRY_CIPHER_MODE_SIV: c_int = 15;
/// The code in an error, without its source.
const GPG_ERR_CODE: c_uint = 0xffff;
const GPG_ERR_CHECKSUM: c_uint = 10;

/// libgcrypt, which has SIV since 1.10. The nonce is the last header string; gcry_cipher_setiv would do the same.
pub struct Libgcrypt;

/// A cipher handle, closed at the end.
struct Gcry(*mut c_void);

impl Gcry {
    fn new(key: &[u8], header: &[&[u8]]) -> Gcry {
        let mut gcry = Gcry(null_mut());
        unsafe {
            let algorithm = GCRY_CIPHER_AES[width_index(key.len() / 2)];
            need("gcry_cipher_open", gcry_cipher_open(&mut gcry.0, algorithm, GCRY_CIPHER_MODE_SIV, 0) == 0);
            need("gcry_cipher_setkey", gcry_cipher_setkey(gcry.0, key.as_ptr(), key.len()) == 0);
            for string in header {
                let error = gcry_cipher_authenticate(gcry.0, string.as_ptr(), string.len());
                need("gcry_cipher_authenticate", error == 0);
            }
        }
        gcry
    }
}

impl Drop for Gcry {
    fn drop(&mut self) {
        unsafe { gcry_cipher_close(self.0) }
    }
}

impl Libgcrypt {
    pub fn new() -> Libgcrypt {
        Libgcrypt::without(c"")
    }

    /// Without some of the machine's instructions, by libgcrypt's names with commas between them, or all.
    pub fn without(instructions: &CStr) -> Libgcrypt {
        unsafe {
            if !instructions.is_empty() {
                let error = gcry_control(GCRYCTL_DISABLE_HWF, instructions.as_ptr(), null::<c_char>());
                need("GCRYCTL_DISABLE_HWF", error == 0);
            }
            need("gcry_check_version (1.10 is needed)", !gcry_check_version(c"1.10.0".as_ptr()).is_null());
            need("gcry_control", gcry_control(GCRYCTL_DISABLE_SECMEM, 0 as c_int) == 0);
            need("gcry_control", gcry_control(GCRYCTL_INITIALIZATION_FINISHED, 0 as c_int) == 0);
        }
        Libgcrypt
    }
}

impl Peer for Libgcrypt {
    fn name(&self) -> &'static str {
        "libgcrypt"
    }

    fn version(&self) -> String {
        format!("libgcrypt {}", text(unsafe { gcry_check_version(null()) }))
    }

    fn instructions(&self) -> String {
        unsafe {
            let list = gcry_get_config(0, c"hwflist".as_ptr());
            let copy = text(list);
            gcry_free(list as *mut c_void);
            copy
        }
    }

    fn takes(&self, _n: usize) -> bool {
        true
    }

    fn seal_to(&self, key: &[u8], header: &[&[u8]], plain: &[u8], sealed: &mut [u8]) {
        let gcry = Gcry::new(key, header);
        let (tag, text) = split(sealed, plain.len());
        unsafe {
            let error = gcry_cipher_encrypt(gcry.0, text.as_mut_ptr(), text.len(), plain.as_ptr(), plain.len());
            need("gcry_cipher_encrypt", error == 0);
            need("gcry_cipher_gettag", gcry_cipher_gettag(gcry.0, tag.as_mut_ptr(), TAG_LEN) == 0);
        }
    }

    fn open_to(&self, key: &[u8], header: &[&[u8]], sealed: &[u8], plain: &mut [u8]) -> bool {
        let gcry = Gcry::new(key, header);
        let (tag, text) = sealed.split_at(TAG_LEN);
        assert_eq!(plain.len(), text.len());
        let error = unsafe {
            let error = gcry_cipher_ctl(gcry.0, GCRYCTL_SET_DECRYPTION_TAG, tag.as_ptr() as *mut c_void, TAG_LEN);
            need("GCRYCTL_SET_DECRYPTION_TAG", error == 0);
            gcry_cipher_decrypt(gcry.0, plain.as_mut_ptr(), plain.len(), text.as_ptr(), text.len())
        };
        need("gcry_cipher_decrypt", error == 0 || error & GPG_ERR_CODE == GPG_ERR_CHECKSUM);
        error == 0
    }
}
