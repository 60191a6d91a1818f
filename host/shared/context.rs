//! What a record is sealed under, a key and a header list, and those who seal it.

use crate::peers::{Libcrypto, Libgcrypt, Peer};
use crate::random::Random;
use crate::whole::{Given, Header};

#[derive(Clone)]
pub struct Context {
    pub key: Vec<u8>,
    pub header: Vec<u8>,
    pub lens: Vec<u32>,
}

impl Context {
    pub fn new(key: &[u8], header: Header) -> Context {
        Context { key: key.to_vec(), header: header.bytes.to_vec(), lens: header.lens.to_vec() }
    }

    pub fn random(random: &mut Random, key_len: usize, lens: Vec<u32>) -> Context {
        let header_len: u32 = lens.iter().sum();
        Context { key: random.bytes(key_len), header: random.bytes(header_len as usize), lens }
    }

    pub fn header(&self) -> Header<'_> {
        Header { bytes: &self.header, lens: &self.lens }
    }

    pub fn strings(&self) -> Vec<&[u8]> {
        self.header().strings()
    }

    pub fn with<'a>(&'a self, input: &'a [u8]) -> Given<'a> {
        Given { key: &self.key, header: self.header(), input }
    }
}

pub struct Peers {
    pub libcrypto: Libcrypto,
    pub libgcrypt: Libgcrypt,
}

impl Peers {
    pub fn new() -> Peers {
        Peers { libcrypto: Libcrypto::new(), libgcrypt: Libgcrypt::new() }
    }

    /// Those that take a plaintext of n bytes; one at least.
    pub fn taking(&self, n: usize) -> impl Iterator<Item = &dyn Peer> {
        [&self.libcrypto as &dyn Peer, &self.libgcrypt].into_iter().filter(move |peer| peer.takes(n))
    }

    /// By libgcrypt: it takes every plaintext, and every header list of up to 126 strings, empty ones too.
    pub fn seal(&self, context: &Context, plain: &[u8]) -> Vec<u8> {
        self.libgcrypt.seal(&context.key, &context.strings(), plain)
    }

    /// By libgcrypt as well.
    pub fn open(&self, context: &Context, sealed: &[u8]) -> Option<Vec<u8>> {
        self.libgcrypt.open(&context.key, &context.strings(), sealed)
    }
}
