//! What each call makes of any state that it is given, by rules 9.4 to 9.13 and the table of answers.
//! What 9 does not judge is used as it is: libcrypto's cipher takes a state's round keys as they stand, and a kept
//! block is not made again. A call's work is the count of what went through that cipher.

use crate::aes::{self, Cipher};
use crate::call::{Call, Kind};
use crate::counter;
use crate::state::{tail_len, Field, Field::*, State};
use shared::library::{LIMIT, TAG_LEN};
use shared::mac::{Block, BlockCipher, Mac};
use shared::probe::{Answer, Report};

/// The key widths.
pub const WIDTHS: [u64; 3] = [16, 24, 32];

/// A call on a state with an output of some length.
pub struct Case<'a> {
    pub state: &'a State,
    pub call: &'a Call,
    pub output: usize,
}

/// The reasons for refusal 9.
pub const REASONS: [(&str, fn(&Case) -> bool); 8] = [
    ("stage", |c| c.state.number(Stage) != c.call.kind.wants()),
    ("key width", |c| !WIDTHS.contains(&c.state.number(Width))),
    ("total", |c| c.total() > LIMIT as u64),
    ("written", |c| c.written() > if c.state.number(Stage) == 2 { c.total() } else { 0 }),
    ("tail length", |c| c.state.number(TailLen) != tail_len(c.total()) as u64),
    ("kept block", |c| c.state.stream_place() % 16 == 0 && c.state.get(Kept).iter().any(|&byte| byte != 0)),
    ("unused tail byte", |c| c.state.get(Tail)[tail_len(c.total())..].iter().any(|&byte| byte != 0)),
    ("close before all is written", |c| c.call.kind == Kind::Close && c.written() < c.total()),
];

/// The refusals in the order in which they are given, each with its condition.
const REFUSALS: [(u64, fn(&Case) -> bool); 4] = [
    (9, |c| REASONS.iter().any(|(_, applies)| applies(c))),
    (4, |c| match c.call.kind {
        Kind::Add | Kind::Feed => c.total().saturating_add(c.piece_len()) > LIMIT as u64,
        Kind::Write => c.written().saturating_add(c.piece_len()) > c.total(),
        _ => false,
    }),
    (6, |c| c.call.output_need(c.total() as usize).is_some_and(|need| c.output < need)),
    (8, |c| c.call.kind == Kind::Finish && WIDTHS.contains(&c.state.number(Width)) && tag(c.state) != c.state.block(V)),
];

impl Case<'_> {
    fn total(&self) -> u64 {
        self.state.number(Total)
    }

    fn written(&self) -> u64 {
        self.state.number(Written)
    }

    fn piece_len(&self) -> u64 {
        self.call.piece.len() as u64
    }

    /// Every refusal that is due.
    pub fn due(&self) -> Vec<u64> {
        REFUSALS.iter().filter(|(_, applies)| applies(self)).map(|(number, _)| *number).collect()
    }
}

fn cipher(state: &State, keys: Field) -> Cipher {
    Cipher::new(state.number(Width), state.get(keys))
}

/// CMAC's cipher with the state's L.
fn mac(state: &State) -> Mac<Cipher> {
    Mac { cipher: cipher(state, MacKeys), l: state.block(L) }
}

/// D over header strings more.
pub fn header_result(state: &State, strings: &[&[u8]]) -> Block {
    mac(state).extended(state.block(D), strings)
}

/// The tag of all that was added or fed.
pub fn tag(state: &State) -> Block {
    let tail = &state.get(Tail)[..tail_len(state.number(Total))];
    mac(state).tag(state.block(D), state.block(Chain), tail)
}

/// A piece xored with the state's key stream: where a block is begun, with what is left of the kept one first, whatever
/// it holds, and then with new blocks. The last block is kept, or zeros where it is used up.
fn xored(state: &mut State, piece: &[u8]) -> Vec<u8> {
    let place = state.stream_place();
    let end = place + piece.len();
    let new = cipher(state, CtrKeys).blocks(&counter::blocks(state.block(V), place.div_ceil(16)..end.div_ceil(16)));
    let begun = if place % 16 == 0 { &[] } else { state.get(Kept) };
    let at_hand = [begun, &new].concat();
    let kept = if end % 16 == 0 { &[0; 16] } else { &at_hand[at_hand.len() - 16..] };
    state.set(Kept, kept);
    piece.iter().zip(&at_hand[place % 16..]).map(|(a, b)| a ^ b).collect()
}

/// Takes plaintext in: blocks that leave the tail are chained.
fn absorb(state: &mut State, piece: &[u8]) {
    let old = state.number(Total);
    let total = old + piece.len() as u64;
    let text = [&state.get(Tail)[..tail_len(old)], piece].concat();
    let (passed, tail) = text.split_at(text.len() - tail_len(total));
    let chain = cipher(state, MacKeys).chain(state.block(Chain), passed);
    state.set(Chain, &chain);
    state.set_number(Total, total);
    state.set_tail(tail);
}

/// The report on a call on which `first` is the first refusal that is due. The state becomes the one that is handed
/// back, and what is written goes to `output`.
pub fn step(state: &mut State, call: &Call, first: Option<u64>, output: &mut [u8]) -> Report {
    let ((number, length), work) = aes::counted(|| answer(state, call, first, output));
    (number, length, work)
}

fn answer(state: &mut State, call: &Call, first: Option<u64>, output: &mut [u8]) -> Answer {
    let (piece, n) = (&call.piece, call.piece.len());
    let (total, written) = (state.number(Total), state.number(Written));
    match (first, call.kind) {
        // Either verdict takes the tag.
        (Some(8), _) | (None, Kind::Finish) => {
            let genuine = tag(state) == state.block(V);
            *state = State::ENDED;
            if genuine {
                return (0, total);
            }
            output[..total as usize].fill(0);
            (8, 0)
        }
        (Some(number), _) => (number, 0),
        (None, Kind::Add) => {
            absorb(state, piece);
            (0, 0)
        }
        (None, Kind::Turn) => {
            let tag = tag(state);
            output[..TAG_LEN].copy_from_slice(&tag);
            state.set_number(Stage, 2);
            state.set(V, &tag);
            (0, TAG_LEN as u64)
        }
        (None, Kind::Write) => {
            output[..n].copy_from_slice(&xored(state, piece));
            state.set_number(Written, written + n as u64);
            (0, n as u64)
        }
        (None, Kind::Feed) => {
            let plain = xored(state, piece);
            output[total as usize..][..n].copy_from_slice(&plain);
            absorb(state, &plain);
            (0, n as u64)
        }
        (None, Kind::Close) => {
            *state = State::ENDED;
            (0, 0)
        }
    }
}
