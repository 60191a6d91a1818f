//! One whole call, with every byte of the memory lent to it.

use crate::check;
use crate::lent::Lent;
use crate::library::{Answer, Function};
use crate::ring;
use crate::work;
use std::fmt;
use Function::{Open, OpenRing};

/// A header list as calls take it: the strings joined, and their lengths.
#[derive(Clone, Copy)]
pub struct Header<'a> {
    pub bytes: &'a [u8],
    pub lens: &'a [u32],
}

impl<'a> Header<'a> {
    /// The strings, where the lengths sum to the bytes.
    pub fn strings(self) -> Vec<&'a [u8]> {
        let ends = self.lens.iter().scan(0, |end, &len| {
            *end += len as usize;
            Some((*end - len as usize, *end))
        });
        ends.map(|(start, end)| &self.bytes[start..end]).collect()
    }

    /// The list of the first `count` strings, and that of the others.
    pub fn split(self, count: usize) -> [Header<'a>; 2] {
        let (first, others) = self.lens.split_at(count);
        let (front, back) = self.bytes.split_at(first.iter().sum::<u32>() as usize);
        [Header { bytes: front, lens: first }, Header { bytes: back, lens: others }]
    }
}

/// Its lengths.
impl fmt::Display for Header<'_> {
    fn fmt(&self, f: &mut fmt::Formatter) -> fmt::Result {
        match self.lens.len() {
            0..8 => write!(f, "{} in strings of {:?}", self.bytes.len(), self.lens),
            count => write!(f, "{} in {count} strings", self.bytes.len()),
        }
    }
}

/// What a call reads; a ring stands in the key's place.
#[derive(Clone, Copy)]
pub struct Given<'a> {
    pub key: &'a [u8],
    pub header: Header<'a>,
    pub input: &'a [u8],
}

/// Makes a whole call with an output and a scratch: its answer, and its work where the call tells it.
pub type Maker = fn(Function, &Given, &mut [u8], &mut [u8]) -> (Answer, Option<u64>);

/// Lengths of the memory lent for writing.
#[derive(Clone, Copy)]
pub struct Room {
    pub output: usize,
    pub scratch: usize,
}

impl Room {
    pub fn need(function: Function, input_len: usize) -> Room {
        Room { output: function.output_need(input_len), scratch: function.scratch_need(input_len) }
    }
}

/// What a call must do.
#[derive(Clone, Copy)]
pub enum Want<'a> {
    Written(&'a [u8]),
    /// Written after a slot's key opened.
    Opened(usize, &'a [u8]),
    Refused(u64),
    Forged,
}

/// One call: its answer, its work and every byte of the lent memory. Gives what is at the front of the output. What
/// opens or is refused under a key is so under a ring of this one key, and of it among strangers.
pub fn run(make: Maker, function: Function, given: &Given, room: Room, want: Want) -> Vec<u8> {
    if function == Open {
        let function = OpenRing(given.key.len());
        run_once(make, function, given, room, want);
        let (ring, slot) = ring::around(given.key);
        let want = if let Want::Written(bytes) = want { Want::Opened(slot, bytes) } else { want };
        run_once(make, function, &Given { key: &ring, ..*given }, room, want);
    }
    run_once(make, function, given, room, want)
}

fn run_once(make: Maker, function: Function, given: &Given, room: Room, want: Want) -> Vec<u8> {
    let input_len = given.input.len();
    let written = |slot, bytes: &[u8]| ((0, slot, bytes.len() as u64), bytes.to_vec(), function.scratch_need(input_len));
    let (answer, front, wiped) = match want {
        Want::Written(bytes) => written(0, bytes),
        Want::Opened(slot, bytes) => written(slot as u64, bytes),
        Want::Refused(number) => ((number, 0, 0), vec![], 0),
        Want::Forged => ((8, 0, 0), vec![0; function.plain_len(input_len)], function.scratch_need(input_len)),
    };
    let tried = match (want, function) {
        (Want::Refused(_), _) => 0,
        (Want::Forged, OpenRing(key_len)) => given.key.len() / key_len,
        _ => answer.1 as usize + 1,
    };
    let blocks = tried as u64 * work::whole(given.header.lens, function.plain_len(input_len));
    let (mut output, mut scratch) = (Lent::new(room.output), Lent::new(room.scratch));
    let (got, work) = make(function, given, output.slice(), scratch.slice());

    let call = || {
        format!(
            "{function:?}, lengths: keys {}, header {}, input {input_len}, output {}, scratch {}",
            given.key.len(), given.header, room.output, room.scratch
        )
    };
    check::holds(|| format!("{}: expected number, slot and length {answer:?}, got {got:?}", call()), got == answer);
    if let Some(work) = work {
        check::holds(|| format!("{}: answer {got:?}: expected {blocks} blocks, got {work}", call()), work == blocks);
    }
    output.check(|part| format!("{}: answer {got:?}, output, {part}", call()), &front);
    scratch.check(|part| format!("{}: answer {got:?}, scratch, {part}", call()), &vec![0; wiped]);
    front
}
