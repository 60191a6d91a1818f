//! The reference model of rules 10.2 to 10.8: what any list of calls after a begin must answer. It sees the
//! arguments of begin and of the calls, and no state, and has tags, openings and AES from the peers.

use crate::call::{Call, Kind};
use crate::counter;
use crate::state::tail_len;
use shared::context::{Context, Peers};
use shared::library::{LIMIT, TAG_LEN};
use shared::mac::Block;
use shared::probe::{Answer, Report};
use shared::work;

pub struct Model<'a> {
    peers: &'a Peers,
    context: &'a Context,
    pub stage: u64,
    /// A: the bytes added or fed.
    pub a: Vec<u8>,
    /// W: the bytes written.
    pub w: Vec<u8>,
    /// The opener's T, or the tag of sealing A from turn on; zeros before.
    pub tag: Block,
}

impl<'a> Model<'a> {
    /// After an opener's begin where there is a tag, else after a sealer's.
    pub fn new(peers: &'a Peers, context: &'a Context, tag: Option<Block>) -> Model<'a> {
        let stage = if tag.is_some() { 3 } else { 1 };
        Model { peers, context, stage, a: vec![], w: vec![], tag: tag.unwrap_or_default() }
    }

    /// A piece xored with the key stream of the tag.
    fn xored(&self, piece: &[u8], place: usize) -> Vec<u8> {
        let key = &self.context.key[self.context.key.len() / 2..];
        counter::xored(piece, self.tag, place, |blocks| self.peers.libcrypto.ecb(key, blocks))
    }

    /// The plaintext that was added, or that what was fed is deciphered to.
    pub fn plain(&self) -> Vec<u8> {
        if self.stage == 3 { self.xored(&self.a, 0) } else { self.a.clone() }
    }

    /// The key stream's block that is begun and not used up, or zeros.
    pub fn kept(&self) -> Block {
        let place = match self.stage {
            2 => self.w.len(),
            3 => self.a.len(),
            _ => 0,
        };
        match place % 16 {
            0 => [0; 16],
            used => self.xored(&[0; 16], place - used).try_into().unwrap(),
        }
    }

    /// A call's report, its work from lengths alone. What it writes goes to `output`.
    pub fn call(&mut self, call: &Call, output: &mut [u8]) -> Report {
        let (a, w) = (self.a.len(), self.w.len());
        let (number, length) = self.answer(call, output);
        let more = |blocks: fn(usize) -> u64, from, to| blocks(to) - blocks(from);
        let work = match (number, call.kind) {
            (0, Kind::Add) => more(chained, a, self.a.len()),
            (0, Kind::Write) => more(work::key_stream, w, self.w.len()),
            (0, Kind::Feed) => more(chained, a, self.a.len()) + more(work::key_stream, a, self.a.len()),
            (0, Kind::Turn) | (0 | 8, Kind::Finish) => work::string(a) - chained(a),
            _ => 0,
        };
        (number, length, work)
    }

    /// A call's answer. What it writes goes to `output`.
    fn answer(&mut self, call: &Call, output: &mut [u8]) -> Answer {
        let (piece, n) = (&call.piece, call.piece.len());
        let total = self.a.len();
        if self.stage != call.kind.wants() {
            return (9, 0);
        }
        match call.kind {
            Kind::Add | Kind::Feed if total + n > LIMIT => (4, 0),
            Kind::Add => {
                self.a.extend(piece);
                (0, 0)
            }
            Kind::Turn if output.len() < TAG_LEN => (6, 0),
            Kind::Turn => {
                self.tag = self.peers.seal(self.context, &self.a)[..TAG_LEN].try_into().unwrap();
                output[..TAG_LEN].copy_from_slice(&self.tag);
                self.stage = 2;
                (0, TAG_LEN as u64)
            }
            Kind::Write if self.w.len() + n > total => (4, 0),
            Kind::Write if output.len() < n => (6, 0),
            Kind::Write => {
                output[..n].copy_from_slice(&self.xored(piece, self.w.len()));
                self.w.extend(piece);
                (0, n as u64)
            }
            Kind::Close if self.w.len() < total => (9, 0),
            Kind::Close => {
                self.stage = 0;
                (0, 0)
            }
            Kind::Feed if output.len() < total + n => (6, 0),
            Kind::Feed => {
                output[total..total + n].copy_from_slice(&self.xored(piece, total));
                self.a.extend(piece);
                (0, n as u64)
            }
            // The opener's one output has room for all that was fed; where finish is lent less, the table has 6.
            Kind::Finish if output.len() < total => (6, 0),
            Kind::Finish => {
                self.stage = 0;
                match self.peers.open(self.context, &[&self.tag[..], &self.a].concat()) {
                    Some(plain) => {
                        output[..total].copy_from_slice(&plain);
                        (0, total as u64)
                    }
                    None => {
                        output[..total].fill(0);
                        (8, 0)
                    }
                }
            }
        }
    }
}

/// How many blocks of a plaintext stand before its tail.
fn chained(total: usize) -> u64 {
    ((total - tail_len(total as u64)) / 16) as u64
}
