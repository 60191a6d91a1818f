//! The whole calls of libprobe.a, with any header list, a whole string by pieces, and
//! records from one head, as safe Rust.

use crate::check::fail;
use crate::library::{self, Function};
use crate::whole::{Given, Header};

#[rustfmt::skip]
unsafe extern "C" {
    fn probe_seal(key: *const u8, key_len: usize, header: *const u8, header_len: usize, lens: *const u32, lens_len: usize,
        input: *const u8, input_len: usize, output: *mut u8, output_len: usize, scratch: *mut u8, scratch_len: usize,
        work: *mut u8, work_len: usize) -> u64;
    fn probe_open(key: *const u8, key_len: usize, header: *const u8, header_len: usize, lens: *const u32, lens_len: usize,
        input: *const u8, input_len: usize, output: *mut u8, output_len: usize, scratch: *mut u8, scratch_len: usize,
        work: *mut u8, work_len: usize) -> u64;
    fn probe_open_ring(key_len: usize, ring: *const u8, ring_len: usize, header: *const u8, header_len: usize,
        lens: *const u32, lens_len: usize, input: *const u8, input_len: usize, output: *mut u8, output_len: usize,
        scratch: *mut u8, scratch_len: usize, slot: *mut u8, slot_len: usize, work: *mut u8, work_len: usize) -> u64;
    fn probe_planned_work(lens: *const u32, lens_len: usize, n: usize) -> u64;
    fn probe_seal_pieces(key: *const u8, key_len: usize, header: *const u8, header_len: usize, lens: *const u32,
        lens_len: usize, input: *const u8, input_len: usize, n: usize, output: *mut u8, output_len: usize) -> u64;
    fn probe_open_pieces(key: *const u8, key_len: usize, header: *const u8, header_len: usize, lens: *const u32,
        lens_len: usize, input: *const u8, input_len: usize, n: usize, output: *mut u8, output_len: usize) -> u64;
    fn probe_seal_records(key: *const u8, key_len: usize, header: *const u8, header_len: usize, lens: *const u32,
        lens_len: usize, input: *const u8, input_len: usize, n: usize, output: *mut u8, output_len: usize) -> u64;
    fn probe_open_records(key: *const u8, key_len: usize, header: *const u8, header_len: usize, lens: *const u32,
        lens_len: usize, input: *const u8, input_len: usize, n: usize, output: *mut u8, output_len: usize) -> u64;
}

/// A number and a length.
pub type Answer = (u64, u64);

/// A number, a length, and the call's work.
pub type Report = (u64, u64, u64);

fn answer(result: u64) -> Answer {
    (result >> 32, result & 0xffff_ffff)
}

/// A call that hands its work back through a buffer, which it is lent with the buffer's length.
pub fn report(call: impl FnOnce(*mut u8, usize) -> u64) -> Report {
    let mut work = [0xa5; 8];
    let (number, length) = answer(call(work.as_mut_ptr(), work.len()));
    (number, length, u64::from_le_bytes(work))
}

// In all that follows slices are valid for their lengths, never null, and those that are written overlap no other.

/// A whole call, with its work.
pub fn whole(function: Function, given: &Given, output: &mut [u8], scratch: &mut [u8]) -> (library::Answer, Option<u64>) {
    let raw = match function {
        Function::Seal => probe_seal,
        Function::Open => probe_open,
        Function::OpenRing(key_len) => return open_ring(key_len, given, output, scratch),
    };
    let Given { key, header: Header { bytes, lens }, input } = *given;
    let (number, length, work) = report(|work, work_len| unsafe {
        raw(
            key.as_ptr(), key.len(), bytes.as_ptr(), bytes.len(), lens.as_ptr(), lens.len(), input.as_ptr(), input.len(),
            output.as_mut_ptr(), output.len(), scratch.as_mut_ptr(), scratch.len(), work, work_len,
        )
    });
    ((number, 0, length), Some(work))
}

/// The slot comes through a byte of its own.
fn open_ring(key_len: usize, given: &Given, output: &mut [u8], scratch: &mut [u8]) -> (library::Answer, Option<u64>) {
    let Given { key: ring, header: Header { bytes, lens }, input } = *given;
    let mut slot = [0xff];
    let (number, length, work) = report(|work, work_len| unsafe {
        probe_open_ring(
            key_len, ring.as_ptr(), ring.len(), bytes.as_ptr(), bytes.len(), lens.as_ptr(), lens.len(),
            input.as_ptr(), input.len(), output.as_mut_ptr(), output.len(), scratch.as_mut_ptr(), scratch.len(),
            slot.as_mut_ptr(), slot.len(), work, work_len,
        )
    });
    ((number, slot[0] as u64, length), Some(work))
}

pub fn planned_work(lens: &[u32], n: usize) -> u64 {
    unsafe { probe_planned_work(lens.as_ptr(), lens.len(), n) }
}

/// A call that cuts its input by a length.
type Cutting = unsafe extern "C" fn(
    *const u8, usize, *const u8, usize, *const u32, usize, *const u8, usize, usize, *mut u8, usize,
) -> u64;

/// One of two such calls, for sealing and for opening.
fn cut([seal, open]: [Cutting; 2], function: Function, given: &Given, n: usize, output: &mut [u8]) -> Answer {
    let raw = match function {
        Function::Seal => seal,
        Function::Open => open,
        Function::OpenRing(_) => fail("no ring opens what is cut".to_string()),
    };
    let Given { key, header: Header { bytes, lens }, input } = *given;
    answer(unsafe {
        raw(
            key.as_ptr(), key.len(), bytes.as_ptr(), bytes.len(), lens.as_ptr(), lens.len(), input.as_ptr(), input.len(),
            n, output.as_mut_ptr(), output.len(),
        )
    })
}

/// A whole string by pieces of n bytes.
pub fn by_pieces(function: Function, given: &Given, n: usize, output: &mut [u8]) -> Answer {
    cut([probe_seal_pieces, probe_open_pieces], function, given, n, output)
}

/// Records with n bytes of plaintext each, all begun from one head: a refusal of the lengths, else the
/// first refusal, else the last answer.
pub fn records(function: Function, given: &Given, n: usize, output: &mut [u8]) -> Answer {
    cut([probe_seal_records, probe_open_records], function, given, n, output)
}
