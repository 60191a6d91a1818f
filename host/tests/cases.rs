//! What is run: records against both peers, damage, the table of answers, and tags chosen by their end.

use shared::answers::{Calls, Lens};
use shared::check;
use shared::chosen;
use shared::context::Peers;
use shared::library::{Answer, Args, Function, KEY_LENS, LIMIT, TAG_LEN};
use shared::peers::Peer;
use shared::random::Random;
use shared::ring::Rings;
use shared::whole::{self, Given, Header, Room, Want};
use std::collections::BTreeSet;
use Function::{Open, Seal};

const AD_LENS: [usize; 5] = [0, 1, 15, 16, 17];
const NONCE_LENS: [usize; 4] = [1, 15, 16, 17];

/// A key, a header and a text: the plaintext to seal or the sealed string to open.
#[derive(Clone)]
struct Record {
    key: Vec<u8>,
    ad: Vec<u8>,
    nonce: Vec<u8>,
    text: Vec<u8>,
}

impl Record {
    fn random(random: &mut Random, key_len: usize, ad_len: usize, nonce_len: usize, text_len: usize) -> Record {
        let [key, ad, nonce, text] = [key_len, ad_len, nonce_len, text_len].map(|len| random.bytes(len));
        Record { key, ad, nonce, text }
    }

    fn header(&self) -> [&[u8]; 2] {
        [&self.ad, &self.nonce]
    }

    fn with_text(&self, text: &[u8]) -> Record {
        Record { text: text.to_vec(), ..self.clone() }
    }

    /// A call on the record in memory that has `more` bytes than it needs.
    fn run(&self, function: Function, more: usize, want: Want) -> Vec<u8> {
        let need = Room::need(function, self.text.len());
        self.run_in(function, Room { output: need.output + more, scratch: need.scratch + more }, want)
    }

    fn run_in(&self, function: Function, room: Room, want: Want) -> Vec<u8> {
        let lens = [self.ad.len() as u32, self.nonce.len() as u32];
        let header = Header { bytes: &self.header().concat(), lens: &lens };
        whole::run(call, function, &Given { key: &self.key, header, input: &self.text }, room, want)
    }
}

/// A call of the archive's, which does not tell its work: the header is associated data and nonce.
fn call(function: Function, given: &Given, output: &mut [u8], scratch: &mut [u8]) -> (Answer, Option<u64>) {
    let Given { key, header, input } = *given;
    let args = Args { key, header: header.bytes, ad_len: header.lens[0], nonce_len: header.lens[1], input };
    (function.call(&args, output, scratch), None)
}

/// Rings at the archive's interface, with every header.
fn rings() -> Rings {
    let lists = AD_LENS.iter().flat_map(|&ad| NONCE_LENS.map(|nonce| vec![ad as u32, nonce as u32])).collect();
    Rings { make: call, lists }
}

/// Ways to damage a sealed record. One that has nothing to damage says so with false.
const DAMAGES: [(&str, fn(&mut Record, &mut Random) -> bool); 9] = [
    ("tag", |r, random| random.flip(&mut r.text[..TAG_LEN])),
    ("text", |r, random| random.flip(&mut r.text[TAG_LEN..])),
    ("associated data", |r, random| random.flip(&mut r.ad)),
    ("nonce", |r, random| random.flip(&mut r.nonce)),
    ("first half of the key", |r, random| {
        let half = r.key.len() / 2;
        random.flip(&mut r.key[..half])
    }),
    // This half gives the key stream: an empty plaintext has none, and the few bytes of a
    // short one may come out the same.
    ("second half of the key", |r, random| {
        let half = r.key.len() / 2;
        r.text.len() >= TAG_LEN + 16 && random.flip(&mut r.key[half..])
    }),
    ("place where the nonce starts", |r, _| {
        let moves = r.nonce.len() > 1;
        if moves {
            r.ad.push(r.nonce.remove(0));
        }
        moves
    }),
    ("last byte cut", |r, _| r.text.len() > TAG_LEN && r.text.pop().is_some()),
    ("byte appended", |r, _| {
        let fits = r.text.len() < LIMIT + TAG_LEN;
        if fits {
            r.text.push(0);
        }
        fits
    }),
];

pub struct Cases {
    pub peers: Peers,
    pub random: Random,
}

impl Cases {
    /// RFC 5297, appendix A, by the peers: they are called as they should be.
    pub fn peers_have_the_rfcs_examples(&mut self) {
        for (key, header, plain, sealed) in RFC5297_APPENDIX_A {
            let (key, plain, sealed) = (unhex(key), unhex(plain), unhex(sealed));
            let strings: Vec<Vec<u8>> = header.iter().map(|s| unhex(s)).collect();
            let header: Vec<&[u8]> = strings.iter().map(|s| &s[..]).collect();
            for peer in self.peers.taking(plain.len()) {
                check::bytes(|| format!("{} on RFC 5297, A", peer.name()), &sealed, &peer.seal(&key, &header, &plain));
                check::holds(
                    || format!("{} does not open RFC 5297, A", peer.name()),
                    peer.open(&key, &header, &sealed).as_ref() == Some(&plain),
                );
            }
        }
    }

    /// Sealed as the peers seal it, in memory just large enough and larger; opened here and by the peers.
    fn compare(&mut self, record: &Record) -> Record {
        let n = record.text.len();
        let sealed = self.peers.libgcrypt.seal(&record.key, &record.header(), &record.text);
        let more = 1 + self.random.below(40);
        let by_us = record.with_text(&record.run(Seal, 0, Want::Written(&sealed)));
        record.run(Seal, more, Want::Written(&sealed));
        for peer in self.peers.taking(n) {
            let what = |does| format!("{} {does} {n} bytes, key {}", peer.name(), record.key.len());
            let by_peer = record.with_text(&peer.seal(&record.key, &record.header(), &record.text));
            check::bytes(|| what("seals"), &by_us.text, &by_peer.text);
            by_peer.run(Open, 0, Want::Written(&record.text));
            by_peer.run(Open, more, Want::Written(&record.text));
            let opened = peer.open(&record.key, &record.header(), &by_us.text);
            check::bytes(|| what("opens"), &record.text, &opened.unwrap_or_default());
        }
        by_us
    }

    /// Each kind of damage is found, here and by the peers.
    fn damage(&mut self, sealed: &Record) {
        for (what, damage) in DAMAGES {
            let mut forged = sealed.clone();
            if damage(&mut forged, &mut self.random) {
                let more = self.random.below(3);
                self.forged(&forged, more, what);
            }
        }
    }

    fn forged(&self, forged: &Record, more: usize, what: &str) {
        forged.run(Open, more, Want::Forged);
        for peer in self.peers.taking(forged.text.len() - TAG_LEN) {
            let opened = peer.open(&forged.key, &forged.header(), &forged.text);
            check::holds(|| format!("{} opens a record with damage: {what}", peer.name()), opened.is_none());
        }
    }

    /// Output or scratch one byte short.
    fn short(&self, record: &Record, function: Function) {
        let need = Room::need(function, record.text.len());
        if need.output > 0 {
            record.run_in(function, Room { output: need.output - 1, ..need }, Want::Refused(6));
        }
        record.run_in(function, Room { scratch: need.scratch - 1, ..need }, Want::Refused(7));
    }

    fn whole(&mut self, record: &Record) {
        let sealed = self.compare(record);
        self.damage(&sealed);
        self.short(record, Seal);
        self.short(&sealed, Open);
    }

    /// Every length to 200 with every header, then around each power of two to the limit with a header in turn.
    pub fn lengths(&mut self) {
        let headers: Vec<(usize, usize)> = AD_LENS.iter().flat_map(|&a| NONCE_LENS.map(|n| (a, n))).collect();
        let long = (8..=20).flat_map(|k| [(1 << k) - 1, 1 << k, (1 << k) + 1]).filter(|&n| n <= LIMIT);
        let lens: Vec<usize> = (0..=200).chain(long).collect();
        let mut turn = headers.iter().cycle();
        for key_len in KEY_LENS {
            for &n in &lens {
                let count = if n <= 200 { headers.len() } else { 1 };
                for &(ad_len, nonce_len) in turn.by_ref().take(count) {
                    let record = Record::random(&mut self.random, key_len, ad_len, nonce_len, n);
                    self.whole(&record);
                }
            }
        }
    }

    /// Every single bit of a sealed record flipped; and of its tag with the text enciphered for that tag, so that
    /// only the comparison of this bit can tell.
    pub fn every_bit(&mut self) {
        for key_len in KEY_LENS {
            let record = Record::random(&mut self.random, key_len, 20, 12, 40);
            let sealed = self.compare(&record);
            for bit in 0..8 * sealed.text.len() {
                let mut forged = sealed.clone();
                forged.text[bit / 8] ^= 1 << (bit % 8);
                self.forged(&forged, 0, "one bit");
                if bit < 8 * TAG_LEN {
                    let tag = forged.text[..TAG_LEN].try_into().unwrap();
                    let text = chosen::sealed_under(&self.peers.libcrypto, &record.key, &tag, &record.text);
                    self.forged(&record.with_text(&text), 0, "one bit of the tag before enciphering");
                }
            }
        }
    }

    /// Nonces are tried until a tag of 40 bytes has each of these ends. The counter carries out of two bytes in the
    /// third block after ff fe, in the second after ff ff, and not after 3a 10.
    pub fn searched_tags(&mut self) {
        for key_len in KEY_LENS {
            let mut record = Record::random(&mut self.random, key_len, 20, 12, 40);
            for end in [[0x3a, 0x10], [0xff, 0xfe], [0xff, 0xff]] {
                let found = (0..1 << 22).any(|_| {
                    record.nonce = self.random.bytes(12);
                    self.peers.libgcrypt.seal(&record.key, &record.header(), &record.text)[..TAG_LEN].ends_with(&end)
                });
                check::holds(|| format!("no nonce gives a tag that ends in {}", check::hex(&end)), found);
                let sealed = self.compare(&record);
                self.damage(&sealed);
            }
        }
    }

    /// Tags from which the counter carries out of its last byte, its last two, three and four (into
    /// the bit that Q clears, set or not in the tag), in the second block, in the third and in the
    /// last; at the limit in the last only.
    pub fn chosen_tags(&mut self) {
        let mut random = Random(self.random.next());
        for key_len in KEY_LENS {
            for n in [40, 41, 48, 100, 4099, LIMIT] {
                let last = (n as u64 - 1) / 16;
                let places = BTreeSet::from(if n < LIMIT { [1, 2, last] } else { [last; 3] });
                let at_places = |carry| places.iter().map(move |&at| chosen::carrying(carry, at));
                for end in chosen::CARRIES.into_iter().flat_map(at_places).chain([vec![0x3a, 0x10], vec![0xff; TAG_LEN]]) {
                    let mut record = Record::random(&mut random, key_len, 20, 12, n);
                    let tag = chosen::tag(&mut random, &end);
                    let text = record.text.clone();
                    record.text = chosen::plaintext(&self.peers.libcrypto, &record.key, &record.header(), &tag, text);
                    let sealed = self.compare(&record);
                    check::bytes(|| format!("the tag chosen for {n} bytes"), &tag, &sealed.text[..TAG_LEN]);
                }
            }
        }
    }

    /// The record's key at every set of a ring's slots.
    pub fn ring_slots(&mut self) {
        rings().slots(&self.peers, &mut self.random);
    }

    /// Buffers that are rings, and that are none.
    pub fn ring_buffers(&mut self) {
        rings().buffers(&self.peers, &mut self.random);
    }

    /// The table of answers: every case with at most three things out of the ordinary.
    pub fn answers(&mut self) {
        let lists = HEADER_LENS.map(|(ad_len, nonce_len, header_len)| -> Lens { (vec![ad_len, nonce_len], header_len) });
        Calls { make: call, lists: &lists, without: 2 }.check(&self.peers.libgcrypt, &mut self.random, 3);
    }
}

/// Associated data, nonce and header. The last two sum to their length in 32 bits.
const HEADER_LENS: [(u32, u32, usize); 10] = [
    (20, 12, 32), (0, 12, 12), (20, 0, 20), (0, 0, 0), (0, 0, 1), (20, 12, 31), (20, 12, 33), (20, 12, 0),
    (u32::MAX, 33, 32), (1 << 31, 1 << 31, 0),
];

fn unhex(text: &str) -> Vec<u8> {
    let digits: Vec<u32> = text.chars().filter_map(|c| c.to_digit(16)).collect();
    digits.chunks(2).map(|pair| (pair[0] << 4 | pair[1]) as u8).collect()
}

/// Key, header strings, plaintext, sealed string of A.1 and A.2.
#[rustfmt::skip]
const RFC5297_APPENDIX_A: [(&str, &[&str], &str, &str); 2] = [
    (
        "fffefdfc fbfaf9f8 f7f6f5f4 f3f2f1f0 f0f1f2f3 f4f5f6f7 f8f9fafb fcfdfeff",
        &["10111213 14151617 18191a1b 1c1d1e1f 20212223 24252627"],
        "11223344 55667788 99aabbcc ddee",
        "85632d07 c6e8f37f 950acd32 0a2ecc93 40c02b96 90c4dc04 daef7f6a fe5c",
    ),
    (
        "7f7e7d7c 7b7a7978 77767574 73727170 40414243 44454647 48494a4b 4c4d4e4f",
        &[
            "00112233 44556677 8899aabb ccddeeff deaddada deaddada ffeeddcc bbaa9988 77665544 33221100",
            "10203040 50607080 90a0",
            "09f91102 9d74e35b d84156c5 635688c0",
        ],
        "74686973 20697320 736f6d65 20706c61 696e7465 78742074 6f20656e 63727970 74207573 696e6720 5349562d 414553",
        "7bdb6e3b 432667eb 06f4d14b ff2fbd0f cb900f2f ddbe4043 26601965 c889bf17 dba77ceb 094fa663 b7a3f748 ba8af829
         ea64ad54 4a272e9c 485b62a3 fd5c0d",
    ),
];
