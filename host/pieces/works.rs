//! The work of calls at every short length: whole calls under keys and rings, heads and what begins from them;
//! what is planned; and records behind the worst headers. Each call's work is held against the sum of rule 15.2
//! where the call is made (whole::run, heads::made, heads::record), and that sum here against a count of what
//! goes through the cipher of a plain AES-SIV.

use crate::aes::counted;
use crate::heads;
use crate::probe::Base;
use crate::reference::Reference;
use crate::Pieces;
use shared::check;
use shared::context::{Context, Peers};
use shared::library::{self, Function, KEY_LENS, LIMIT, RING_MAX, STRINGS_MAX};
use shared::probe::{planned_work, whole};
use shared::random::Random;
use shared::whole::{self, Given, Room, Want};
use shared::work;
use Function::{Open, OpenRing, Seal};

/// Header strings: none, empty ones, and lengths around those of whole blocks.
const LISTS: [&[u32]; 12] = [
    &[], &[0], &[1], &[15], &[16], &[17], &[0, 0], &[0, 1], &[16, 12], &[17, 0], &[31, 32, 33], &[0, 16, 0, 47, 48],
];

/// Every plaintext to 100 bytes behind every list under every key width.
pub fn run(Pieces { peers, random, .. }: &mut Pieces) {
    for key_len in KEY_LENS {
        for lens in LISTS {
            for n in 0..=100 {
                let context = Context::random(random, key_len, lens.to_vec());
                let plain = random.bytes(n);
                let sealed = peers.seal(&context, &plain);
                whole_calls(random, &context, &plain, &sealed);
                rings(random, &context, &plain, &sealed);
                splits(random, &context, &plain, &sealed);
            }
        }
    }
    plans();
    worst_headers(peers, random);
}

/// The plain AES-SIV gives what is wanted, and so many blocks go through its cipher.
fn count<T: PartialEq>(what: impl Fn() -> String, blocks: u64, want: &T, gives: impl FnOnce() -> T) {
    let (got, count) = counted(gives);
    check::holds(|| format!("{}: the plain AES-SIV gives something else", what()), got == *want);
    check::holds(|| format!("{}: a sum of {blocks} blocks, counted {count}", what()), count == blocks);
}

fn name(context: &Context, n: usize, does: &str) -> String {
    format!("{does}, lengths: key {}, header {}, plaintext {n}", context.key.len(), context.header())
}

/// Sealing, opening and forged opening.
fn whole_calls(random: &mut Random, context: &Context, plain: &[u8], sealed: &[u8]) {
    let mut damaged = sealed.to_vec();
    random.flip(&mut damaged);
    let blocks = work::whole(&context.lens, plain.len());
    let reference = || Reference::new(&context.key, &context.strings());
    let what = |does: &'static str| move || name(context, plain.len(), does);
    count(what("sealing"), blocks, &sealed.to_vec(), || reference().seal(plain));
    count(what("opening"), blocks, &Some(plain.to_vec()), || reference().open(sealed));
    count(what("forged opening"), blocks, &None, || reference().open(&damaged));

    let call = |function, input, want| run_whole(function, &context.with(input), want);
    call(Seal, plain, Want::Written(sealed));
    call(Open, sealed, Want::Written(plain));
    call(Open, &damaged, Want::Forged);

    let planned = planned_work(&context.lens, plain.len());
    check::holds(|| format!("{}: {planned}, not {blocks}", what("planned")()), planned == blocks);
    if let [ad_len, nonce_len] = context.lens[..] {
        let want = if nonce_len == 0 { 0 } else { blocks };
        let planned = library::planned_work(ad_len, nonce_len, plain.len());
        check::holds(|| format!("{}: {planned}, not {want}", what("planned for C")()), planned == want);
    }
}

fn run_whole(function: Function, given: &Given, want: Want) {
    whole::run(whole, function, given, Room::need(function, given.input.len()), want);
}

/// Rings of every length with the record's key at each slot, and at none.
fn rings(random: &mut Random, context: &Context, plain: &[u8], sealed: &[u8]) {
    let key_len = context.key.len();
    for keys in 1..=RING_MAX {
        for slot in 0..=keys {
            let mut ring = random.bytes(keys * key_len);
            let (mut tried, mut want) = (keys, Want::Forged);
            if slot < keys {
                ring[slot * key_len..][..key_len].copy_from_slice(&context.key);
                (tried, want) = (slot + 1, Want::Opened(slot, plain));
            }
            let blocks = tried as u64 * work::whole(&context.lens, plain.len());
            let what = || name(context, plain.len(), &format!("ring of {keys} keys, own slot {slot}"));
            count(what, blocks, &(slot < keys).then(|| plain.to_vec()), || {
                ring.chunks(key_len).find_map(|key| Reference::new(key, &context.strings()).open(sealed))
            });
            run_whole(OpenRing(key_len), &Given { key: &ring, ..context.with(sealed) }, want);
        }
    }
}

/// Every split of the list into a head's strings and the rest.
fn splits(random: &mut Random, context: &Context, plain: &[u8], sealed: &[u8]) {
    let key = Base::Key(&context.key);
    for at in 0..=context.lens.len() {
        let [first, rest] = context.header().split(at);
        let what = |does: &str| name(context, plain.len(), &format!("{does}, split at {at}"));
        let (head, own) = counted(|| Reference::new(&context.key, &first.strings()));
        check::holds(|| what(&format!("the head's count is {own}")), own == key.work(first.lens));
        let blocks = work::whole(&context.lens, plain.len()) - own;
        count(|| what("from a head"), blocks, &sealed.to_vec(), || head.extended(&rest.strings()).seal(plain));
        heads::record(random, &heads::made(key, first), rest, plain, sealed, || what("a record"));
    }
}

/// Lengths that are planned and not run: at the bounds, where the sum is rule 15.2's, and past them, where it is 0.
fn plans() {
    let most = u32::MAX;
    for (lens, n, admitted) in [
        (vec![0; 126], LIMIT, true), (vec![most; 126], LIMIT, true), (vec![most; 126], 0, true), (vec![], LIMIT, true),
        (vec![0; 127], 0, false), (vec![most; 300], 40, false), (vec![0; 126], LIMIT + 1, false),
        (vec![], usize::MAX, false), (vec![0; 127], usize::MAX - 15, false), (vec![most, most], LIMIT, true),
        (vec![0, 1], LIMIT - 1, true), (vec![0, most], LIMIT + 1, false), (vec![most, 1], usize::MAX, false),
    ] {
        let want = if admitted { work::whole(&lens, n) } else { 0 };
        let planned = planned_work(&lens, n);
        check::holds(|| format!("planned for {} strings and {n} bytes: {planned}, not {want}", lens.len()), planned == want);
        if let [ad_len, nonce_len] = lens[..] {
            let planned = library::planned_work(ad_len, nonce_len, n);
            check::holds(|| format!("planned for C, {lens:?} and {n} bytes: {planned}, not {want}"), planned == want);
        }
    }
}

/// Records behind the worst header lists: the blocks that are given are what the calls take for the header.
fn worst_headers(peers: &Peers, random: &mut Random) {
    for (header_len, count, least) in [
        (17, 126, 0), (142, 126, 1), (0, 1, 0), (0, 126, 0), (1, 1, 1), (126, 126, 1), (33, 2, 0), (34, 2, 1), (100, 5, 1),
        (60, 4, 0), (1000, 126, 0), (1000, 126, 1), (70000, 3, 0),
    ] {
        let mut places = [0; STRINGS_MAX];
        let (number, blocks) = library::worst_header(header_len, count, least, &mut places);
        let key_len = random.pick(&KEY_LENS);
        let context = Context::random(random, key_len, places[..count].to_vec());
        let plain = random.bytes(40);
        check::holds(|| format!("worst header of {header_len} bytes and {count} strings: {number}"), number == 0);
        check::holds(
            || name(&context, plain.len(), &format!("{blocks} blocks for the header")),
            work::whole(&context.lens, plain.len()) == work::KEY + blocks + work::plain(plain.len()),
        );
        let sealed = peers.seal(&context, &plain);
        whole_calls(random, &context, &plain, &sealed);
    }
}
