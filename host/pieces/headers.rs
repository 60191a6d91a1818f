//! Whole calls with header lists: of 0 to 126 strings, held against libgcrypt, libcrypto and the model of steps, under
//! one key and under rings; and of any form, held against the table of answers.

use crate::fields::Fields;
use crate::model::Model;
use crate::steps;
use crate::Pieces;
use shared::answers::{Calls, Lens};
use shared::check;
use shared::context::{Context, Peers};
use shared::lent::Lent;
use shared::library::{Function, KEY_LENS, LIMIT, TAG_LEN};
use shared::peers::Peer;
use shared::probe;
use shared::random::Random;
use shared::ring::Rings;
use shared::whole::{self, Room, Want};
use Function::{Open, Seal};

pub const STRING_LENS: [u32; 8] = [0, 1, 15, 16, 17, 31, 32, 33];
pub const PLAIN_LENS: [usize; 12] = [0, 1, 15, 16, 17, 31, 32, 33, 40, 47, 100, 1000];
pub const PIECE_LENS: [usize; 9] = [1, 7, 15, 16, 17, 31, 32, 33, 1000];

/// Every count of strings under every key width.
pub fn counts(Pieces { peers, random, .. }: &mut Pieces) {
    let mut plain_lens = PLAIN_LENS.iter().cycle();
    for count in 0..=126 {
        for key_len in KEY_LENS {
            for &n in plain_lens.by_ref().take(5) {
                let mut string_len = || if random.once_in(4) { random.below(100) as u32 } else { random.pick(&STRING_LENS) };
                let lens = (0..count).map(|_| string_len()).collect();
                let lens = if random.once_in(8) { vec![0; count] } else { lens };
                record(peers, random, key_len, lens, n);
            }
        }
    }
    for key_len in KEY_LENS {
        record(peers, random, key_len, vec![20, 0, 12], LIMIT);
    }
}

/// A record with n bytes of plaintext sealed, opened, damaged, and given with wrong lists.
fn record(peers: &Peers, random: &mut Random, key_len: usize, lens: Vec<u32>, n: usize) {
    let context = Context::random(random, key_len, lens);
    let plain = random.bytes(n);
    let sealed = peers.seal(&context, &plain);
    let what = |does: &str| format!("lengths: key {key_len}, header {}, plaintext {n}: {does}", context.header());
    if peers.libcrypto.takes(n) {
        let by_libcrypto = peers.libcrypto.seal(&context.key, &context.strings(), &plain);
        check::bytes(|| what("libcrypto beside libgcrypt"), &sealed, &by_libcrypto);
    }
    let mut model = Model::new(peers, &context, None);
    model.a = plain.clone();
    let tag = steps::tag(&Fields::new(peers, &context).state(&model));
    check::bytes(|| what("the model of steps beside libgcrypt"), &sealed[..TAG_LEN], &tag);

    for more in [0, 1 + random.below(40)] {
        run(&context, Seal, &plain, more, Want::Written(&sealed));
        run(&context, Open, &sealed, more, Want::Written(&plain));
    }
    for (damage, apply) in DAMAGES {
        let (mut context, mut sealed) = (context.clone(), sealed.clone());
        if apply(&mut context, &mut sealed, random) {
            let opened = peers.open(&context, &sealed);
            check::holds(|| what(&format!("libgcrypt opens it with damage: {damage}")), opened.is_none());
            run(&context, Open, &sealed, 0, Want::Forged);
        }
    }
    for (number, apply) in WRONG_LISTS {
        let mut context = context.clone();
        apply(&mut context);
        run(&context, Seal, &plain, 0, Want::Refused(number));
        run(&context, Open, &sealed, 0, Want::Refused(number));
    }

    let piece = random.pick(&PIECE_LENS);
    let what = |does: &str| what(&format!("{does} by pieces of {piece}"));
    run_pieces(&context, Seal, &plain, piece, (0, 0), &sealed, what);
    run_pieces(&context, Open, &sealed, piece, (0, n as u64), &plain, what);
    let mut forged = sealed;
    random.flip(&mut forged);
    run_pieces(&context, Open, &forged, piece, (8, 0), &vec![0; n], what);
}

/// A whole call with `more` bytes of output and scratch than it needs.
fn run(context: &Context, function: Function, input: &[u8], more: usize, want: Want) {
    let need = Room::need(function, input.len());
    let room = Room { output: need.output + more, scratch: need.scratch + more };
    whole::run(probe::whole, function, &context.with(input), room, want);
}

/// A whole string by pieces: the last call's answer, and what the output holds.
fn run_pieces(
    context: &Context,
    function: Function,
    input: &[u8],
    piece: usize,
    answer: probe::Answer,
    front: &[u8],
    what: impl Fn(&str) -> String,
) {
    let mut output = Lent::new(function.output_need(input.len()) + 3);
    let got = probe::by_pieces(function, &context.with(input), piece, output.slice());
    check::holds(|| what(&format!("{function:?}: expected {answer:?}, got {got:?}")), got == answer);
    output.check(|part| what(&format!("{function:?}: output, {part}")), front);
}

type Damage = fn(&mut Context, &mut Vec<u8>, &mut Random) -> bool;

/// Ways to damage a record. One that has nothing to damage says so with false.
const DAMAGES: [(&str, Damage); 5] = [
    ("sealed string", |_, sealed, random| random.flip(sealed)),
    ("header", |context, _, random| random.flip(&mut context.header)),
    ("a byte goes from a string to the next", |context, _, _| {
        let place = context.lens.iter().position(|&len| len > 0).filter(|&i| i + 1 < context.lens.len());
        place.inspect(|&i| {
            context.lens[i] -= 1;
            context.lens[i + 1] += 1;
        });
        place.is_some()
    }),
    ("one empty string more", |context, _, random| {
        let fits = context.lens.len() < 126;
        if fits {
            context.lens.insert(random.below(context.lens.len() + 1), 0);
        }
        fits
    }),
    ("two strings joined", |context, _, random| {
        let joins = context.lens.len() > 1;
        if joins {
            let i = random.below(context.lens.len() - 1);
            context.lens[i] += context.lens.remove(i + 1);
        }
        joins
    }),
];

/// Lists that are refused, and with what.
pub const WRONG_LISTS: [(u64, fn(&mut Context)); 4] = [
    (3, |context| context.header.push(0)),
    (3, |context| match context.lens.last_mut() {
        Some(len) => *len += 1,
        None => context.lens.push(1),
    }),
    (2, |context| context.lens.resize(127, 0)),
    (2, |context| {
        context.lens.resize(127, 0);
        context.header.push(0);
    }),
];

/// Lists of every form, the ordinary one first. In 32 bits the last three sum to their length.
pub fn lists() -> Vec<Lens> {
    let ones = |count, len| (vec![1; count], len);
    vec![
        (vec![20, 12], 32), (vec![], 0), (vec![], 1), (vec![0], 0), (vec![0], 1), (vec![20, 12], 31), (vec![20, 12], 33),
        ones(125, 125), ones(126, 126), ones(126, 125), ones(126, 127), ones(127, 127), ones(127, 126), ones(127, 0),
        (vec![0; 127], 0), ones(300, 300), (vec![u32::MAX, 33], 32), (vec![1 << 31, 1 << 31], 0), (vec![1 << 31; 126], 0),
    ]
}

/// The table of answers for whole calls: every case with at most two things out of the ordinary.
pub fn answers(Pieces { peers, random, .. }: &mut Pieces) {
    Calls { make: probe::whole, lists: &lists(), without: 10 }.check(&peers.libgcrypt, random, 2);
}

/// Rings with lists of no string, of one, of two, and of as many as there may be.
fn rings() -> Rings {
    let lists = vec![vec![], vec![0], vec![33], vec![20, 12], vec![0, 1], vec![0; 126], vec![17; 126]];
    Rings { make: probe::whole, lists }
}

/// The record's key at every set of a ring's slots.
pub fn ring_slots(Pieces { peers, random, .. }: &mut Pieces) {
    rings().slots(peers, random);
}

/// Buffers that are rings, and that are none.
pub fn ring_buffers(Pieces { peers, random, .. }: &mut Pieces) {
    rings().buffers(peers, random);
}
