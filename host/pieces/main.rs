//! libprobe.a against models that have their tags, openings and AES from OpenSSL's libcrypto and libgcrypt: whole calls
//! with any header list, prepared heads, and piecewise sealing and opening, and the work of each call. Its last line is
//! `pieces: N checks passed`.
//! With a seed as its argument it runs the one list of calls that this seed makes, and prints each call.

mod aes;
mod begins;
mod call;
mod counter;
mod fields;
mod head;
mod headers;
mod heads;
mod lists;
mod model;
mod probe;
mod reference;
mod spoiled;
mod state;
mod steps;
mod works;

use shared::context::Peers;
use shared::library::LIMIT;
use shared::random::Random;
use shared::{check, parts};

struct Pieces {
    peers: Peers,
    seed: u64,
    random: Random,
    /// Bytes that are nobody's, the same for every seed.
    noise: Vec<u8>,
}

impl Pieces {
    fn new(seed: u64) -> Pieces {
        Pieces { peers: Peers::new(), seed, random: Random(seed), noise: Random(0).bytes(LIMIT + 4096) }
    }
}

fn main() {
    if let Some(text) = std::env::args().nth(1) {
        let seed = text.parse().unwrap_or_else(|_| check::fail(format!("the seed is no number: {text}")));
        return parts::run("pieces", &mut Pieces::new(seed), &[("one list of calls", lists::show)]);
    }
    parts::run("pieces", &mut Pieces::new(parts::seed("pieces")), &[
        ("header lists of 0 to 126 strings", headers::counts),
        ("the table of answers for whole calls", headers::answers),
        ("rings with a record's key at any slots", headers::ring_slots),
        ("ring buffers of every length", headers::ring_buffers),
        ("the table of answers for heads and begins", begins::run),
        ("every split of a list into head and rest", heads::splits),
        ("heads with a field spoiled", heads::spoiled),
        ("a wall unit's records from one head", heads::wall_unit),
        ("work counted by the cipher's calls", works::run),
        ("every call on good and spoiled states", spoiled::run),
        ("lists of calls beside the model", lists::run),
    ]);
}
