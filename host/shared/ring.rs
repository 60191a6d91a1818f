//! Rings of keys: one key among strangers, a record's key at any slots of a ring, and ring buffers of every length.

use crate::check;
use crate::context::{Context, Peers};
use crate::library::{Function, KEY_LENS, RING_MAX};
use crate::peers::Peer;
use crate::random::Random;
use crate::whole::{self, Given, Maker, Room, Want};
use std::sync::atomic::{AtomicUsize, Ordering};
use Function::OpenRing;

/// One of several slots: how many there are, and which it is.
const PLACES: [(usize, usize); 9] = [(2, 0), (2, 1), (3, 0), (3, 1), (3, 2), (4, 0), (4, 1), (4, 2), (4, 3)];

/// A ring with the key at one slot, and this slot: another place in each call. The strangers beside it
/// differ from the key by a byte of the half that serves the tag, so nothing opens under both; by all
/// its bits, for tests change single ones.
pub fn around(key: &[u8]) -> (Vec<u8>, usize) {
    static CALLS: AtomicUsize = AtomicUsize::new(0);
    let call = CALLS.fetch_add(1, Ordering::Relaxed);
    let (count, slot) = PLACES[call % PLACES.len()];
    let mut ring = key.repeat(count);
    for (at, stranger) in ring.chunks_mut(key.len().max(1)).enumerate().filter(|(at, _)| *at != slot) {
        let byte = &mut stranger[(call + at) % stranger.len().div_ceil(2)];
        *byte = !*byte;
    }
    (ring, slot)
}

/// Keys that are not a given one.
const STRANGERS: [fn(&mut Random, &[u8]) -> Vec<u8>; 5] = [
    |random, key| random.bytes(key.len()),
    |random, key| flipped(random, key, 0),
    // This half gives the key stream: an empty plaintext has none, and opens under both keys.
    |random, key| flipped(random, key, 1),
    |_, key| [&key[key.len() / 2..], &key[..key.len() / 2]].concat(),
    |_, key| [&key[1..], &key[..1]].concat(),
];

/// The key with one bit of a half changed.
fn flipped(random: &mut Random, key: &[u8], half: usize) -> Vec<u8> {
    let mut key = key.to_vec();
    let len = key.len() / 2;
    random.flip(&mut key[half * len..][..len]);
    key
}

const PLAIN_LENS: [usize; 11] = [0, 1, 15, 16, 17, 31, 32, 33, 40, 100, 1000];

/// Lengths that are no key's. The last but two is one in 32 bits, and four of the last but one are 0 in 64.
const NO_KEYS: [usize; 15] = [0, 1, 16, 24, 31, 33, 47, 49, 63, 65, 96, 128, (1 << 32) + 32, 1 << 62, usize::MAX];

/// Calls of one kind under rings.
pub struct Rings {
    pub make: Maker,
    /// Lengths of header strings that the calls take.
    pub lists: Vec<Vec<u32>>,
}

impl Rings {
    /// The record's key at every set of slots, strangers at the others.
    pub fn slots(&self, peers: &Peers, random: &mut Random) {
        let sets: Vec<(usize, u32)> = (1..=RING_MAX).flat_map(|count| (0..1 << count).map(move |set| (count, set))).collect();
        let mut lists = self.lists.iter().cycle();
        let mut by_strangers = 0;
        for key_len in KEY_LENS {
            for n in PLAIN_LENS {
                for &(count, set) in &sets {
                    let context = Context::random(random, key_len, lists.next().unwrap().clone());
                    let key_at = |slot| match set >> slot & 1 {
                        1 => context.key.clone(),
                        _ => random.pick(&STRANGERS)(random, &context.key),
                    };
                    let ring: Vec<u8> = (0..count).flat_map(key_at).collect();
                    let own = (set != 0).then_some(set.trailing_zeros() as usize);
                    let slot = self.record(peers, random, &context, &ring, n);
                    // One byte of a key stream, or none, is soon the same under two keys.
                    let by_stranger = slot.is_some_and(|slot| own.is_none_or(|own| slot < own)) && n < 2;
                    check::holds(|| format!("{n} bytes open at slot {slot:?}, not at {own:?}"), slot == own || by_stranger);
                    by_strangers += by_stranger as usize;
                }
            }
        }
        check::holds(|| "no record opens under a stranger's key".to_string(), by_strangers > 0);
    }

    /// A record of n bytes under a ring, whole and damaged; gives the slot where it opens.
    fn record(&self, peers: &Peers, random: &mut Random, context: &Context, ring: &[u8], n: usize) -> Option<usize> {
        let plain = random.bytes(n);
        let slots = peers.taking(n).map(|peer| {
            let mut sealed = peer.seal(&context.key, &context.strings(), &plain);
            let slot = self.open(peer, random, &Given { key: ring, ..context.with(&sealed) }, context.key.len());
            random.flip(&mut sealed);
            let forged = self.open(peer, random, &Given { key: ring, ..context.with(&sealed) }, context.key.len());
            check::holds(|| format!("{} opens a damaged record", peer.name()), forged.is_none());
            slot
        });
        slots.last().flatten()
    }

    /// What is given is opened at the first slot whose key opens it for a peer; gives this slot.
    fn open(&self, peer: &dyn Peer, random: &mut Random, given: &Given, key_len: usize) -> Option<usize> {
        let opens = |(slot, key)| peer.open(key, &given.header.strings(), given.input).map(|plain| (slot, plain));
        let found = given.key.chunks(key_len).enumerate().find_map(opens);
        let want = found.as_ref().map_or(Want::Forged, |(slot, plain)| Want::Opened(*slot, plain));
        for more in [0, 1 + random.below(40)] {
            self.run(key_len, given, more, want);
        }
        found.map(|(slot, _)| slot)
    }

    /// Buffers of every length to five keys and a byte. The record's key is the last whole one in the buffer.
    pub fn buffers(&self, peers: &Peers, random: &mut Random) {
        let mut lists = self.lists.iter().cycle();
        let mut record = |random: &mut Random, key_len| Context::random(random, key_len, lists.next().unwrap().clone());
        let plain = random.bytes(40);
        for key_len in KEY_LENS {
            for ring_len in 0..=5 * key_len + 1 {
                let mut context = record(random, key_len);
                let ring = random.bytes(ring_len);
                if let Some(key) = ring.chunks_exact(key_len).last() {
                    context.key = key.to_vec();
                }
                let sealed = peers.seal(&context, &plain);
                let want = match (ring_len / key_len, ring_len % key_len) {
                    (count @ 1..=RING_MAX, 0) => Want::Opened(count - 1, &plain),
                    _ => Want::Refused(11),
                };
                self.run(key_len, &Given { key: &ring, ..context.with(&sealed) }, 0, want);
            }
        }
        for key_len in NO_KEYS {
            for ring_len in 0..=5 * 64 + 1 {
                let context = record(random, 32);
                let sealed = peers.seal(&context, &plain);
                let ring = context.key.iter().copied().cycle().take(ring_len).collect::<Vec<u8>>();
                self.run(key_len, &Given { key: &ring, ..context.with(&sealed) }, 0, Want::Refused(1));
            }
        }
    }

    /// A call in memory that has `more` bytes than it needs.
    fn run(&self, key_len: usize, given: &Given, more: usize, want: Want) {
        let need = Room::need(OpenRing(key_len), given.input.len());
        let room = Room { output: need.output + more, scratch: need.scratch + more };
        whole::run(self.make, OpenRing(key_len), given, room, want);
    }
}
