//! Heads and the piecewise calls of libprobe.a as safe Rust.

use crate::call::{Call, Kind};
use crate::head::{self, Head};
use crate::state::{State, LEN};
use shared::check;
use shared::library::TAG_LEN;
use shared::probe::{report, Report};
use shared::whole::Header;

#[rustfmt::skip]
unsafe extern "C" {
    fn probe_make_head(key: *const u8, key_len: usize, header: *const u8, header_len: usize, lens: *const u32,
        lens_len: usize, head: *mut u8, head_len: usize, work: *mut u8, work_len: usize) -> u64;
    fn probe_extend_head(head: *mut u8, head_len: usize, header: *const u8, header_len: usize, lens: *const u32,
        lens_len: usize, work: *mut u8, work_len: usize) -> u64;
    fn probe_begin_sealer_from(head: *const u8, head_len: usize, header: *const u8, header_len: usize, lens: *const u32,
        lens_len: usize, state: *mut u8, state_len: usize, work: *mut u8, work_len: usize) -> u64;
    fn probe_begin_opener_from(head: *const u8, head_len: usize, header: *const u8, header_len: usize, lens: *const u32,
        lens_len: usize, tag: *const u8, tag_len: usize, state: *mut u8, state_len: usize, work: *mut u8,
        work_len: usize) -> u64;
    fn probe_begin_sealer(key: *const u8, key_len: usize, header: *const u8, header_len: usize, lens: *const u32,
        lens_len: usize, state: *mut u8, state_len: usize, work: *mut u8, work_len: usize) -> u64;
    fn probe_begin_opener(key: *const u8, key_len: usize, header: *const u8, header_len: usize, lens: *const u32,
        lens_len: usize, tag: *const u8, tag_len: usize, state: *mut u8, state_len: usize, work: *mut u8,
        work_len: usize) -> u64;
    fn probe_add(state: *mut u8, state_len: usize, piece: *const u8, piece_len: usize, work: *mut u8,
        work_len: usize) -> u64;
    fn probe_turn(state: *mut u8, state_len: usize, output: *mut u8, output_len: usize, work: *mut u8,
        work_len: usize) -> u64;
    fn probe_write(state: *mut u8, state_len: usize, piece: *const u8, piece_len: usize, output: *mut u8,
        output_len: usize, work: *mut u8, work_len: usize) -> u64;
    fn probe_close(state: *mut u8, state_len: usize, work: *mut u8, work_len: usize) -> u64;
    fn probe_feed(state: *mut u8, state_len: usize, piece: *const u8, piece_len: usize, output: *mut u8,
        output_len: usize, work: *mut u8, work_len: usize) -> u64;
    fn probe_finish(state: *mut u8, state_len: usize, output: *mut u8, output_len: usize, work: *mut u8,
        work_len: usize) -> u64;
}

type BeginSealer =
    unsafe extern "C" fn(*const u8, usize, *const u8, usize, *const u32, usize, *mut u8, usize, *mut u8, usize) -> u64;
type BeginOpener = unsafe extern "C" fn(
    *const u8, usize, *const u8, usize, *const u32, usize, *const u8, usize, *mut u8, usize, *mut u8, usize,
) -> u64;

// In all that follows slices are valid for their lengths, never null, and those that are written overlap no other.

/// What header strings are taken in after.
#[derive(Clone, Copy)]
pub enum Base<'a> {
    Key(&'a [u8]),
    Head(&'a Head),
}

/// Makes a head from a key, or extends one: the report, and the head that is handed back.
pub fn make(base: Base, header: Header) -> (Report, Head) {
    let Header { bytes, lens } = header;
    let mut made = match base {
        Base::Key(_) => [0xa5; head::LEN],
        Base::Head(head) => head.to_bytes(),
    };
    let to = made.as_mut_ptr();
    let report = report(|work, work_len| unsafe {
        match base {
            Base::Key(key) => probe_make_head(
                key.as_ptr(), key.len(), bytes.as_ptr(), bytes.len(), lens.as_ptr(), lens.len(), to, head::LEN,
                work, work_len,
            ),
            Base::Head(_) => probe_extend_head(
                to, head::LEN, bytes.as_ptr(), bytes.len(), lens.as_ptr(), lens.len(), work, work_len,
            ),
        }
    });
    (report, Head::from_bytes(made))
}

/// An opener's begin where there is a tag, else a sealer's.
pub fn begin(base: Base, header: Header, tag: Option<&[u8]>, state: &mut State) -> Report {
    let (Header { bytes, lens }, state) = (header, state.0.as_mut_ptr());
    let head_bytes;
    let (from, sealer, opener): (&[u8], BeginSealer, BeginOpener) = match base {
        Base::Key(key) => (key, probe_begin_sealer, probe_begin_opener),
        Base::Head(head) => {
            head_bytes = head.to_bytes();
            (&head_bytes, probe_begin_sealer_from, probe_begin_opener_from)
        }
    };
    report(|work, work_len| unsafe {
        match tag {
            None => sealer(
                from.as_ptr(), from.len(), bytes.as_ptr(), bytes.len(), lens.as_ptr(), lens.len(), state, LEN,
                work, work_len,
            ),
            Some(tag) => opener(
                from.as_ptr(), from.len(), bytes.as_ptr(), bytes.len(), lens.as_ptr(), lens.len(),
                tag.as_ptr(), tag.len(), state, LEN, work, work_len,
            ),
        }
    })
}

/// A call on a state, which is left as the call hands it back.
pub fn step(state: &mut State, call: &Call, output: &mut [u8]) -> Report {
    let state = state.0.as_mut_ptr();
    let (piece, n) = (call.piece.as_ptr(), call.piece.len());
    let (out, len) = (output.as_mut_ptr(), output.len());
    report(|work, work_len| unsafe {
        match call.kind {
            Kind::Add => probe_add(state, LEN, piece, n, work, work_len),
            Kind::Turn => probe_turn(state, LEN, out, len, work, work_len),
            Kind::Write => probe_write(state, LEN, piece, n, out, len, work, work_len),
            Kind::Close => probe_close(state, LEN, work, work_len),
            Kind::Feed => probe_feed(state, LEN, piece, n, out, len, work, work_len),
            Kind::Finish => probe_finish(state, LEN, out, len, work, work_len),
        }
    })
}

/// The states that each of some calls after a begin hands back. All must succeed.
pub fn states(begun: &State, calls: &[(Kind, &[u8])], what: impl Fn() -> String) -> Vec<State> {
    let mut state = begun.clone();
    let mut states = vec![];
    let mut output = vec![0; calls.iter().map(|(_, piece)| piece.len()).sum::<usize>().max(TAG_LEN)];
    for &(kind, piece) in calls {
        let call = Call { kind, piece: piece.to_vec() };
        let got = step(&mut state, &call, &mut output);
        check::holds(|| format!("{}: {call}: expected number 0, got {got:?}", what()), got.0 == 0);
        states.push(state.clone());
    }
    states
}
