//! The table of answers for whole calls, each case with a few things out of the ordinary.

use crate::library::{Function, KEY_LENS, LIMIT, RING_MAX, STRINGS_MAX, TAG_LEN};
use crate::peers::{Libgcrypt, Peer};
use crate::random::Random;
use crate::table::{choices, Together};
use crate::whole::{self, Given, Header, Maker, Room, Want};
use Function::{Open, OpenRing, Seal};

/// The lengths of a header list: its strings', and that of their bytes.
pub type Lens = (Vec<u32>, usize);

/// Whole calls of one kind.
pub struct Calls<'a> {
    pub make: Maker,
    /// The header lists to give them, the ordinary one first.
    pub lists: &'a [Lens],
    /// The refusal that no list has them give: 2 with two strings always, 10 where the nonce is a string as any other.
    pub without: u64,
}

/// Lengths and numbers of a call.
struct Case<'a> {
    function: Function,
    key_len: usize,
    ring: Ring,
    header: &'a Lens,
    input_len: usize,
    output: fn(usize) -> usize,
    scratch: fn(usize) -> usize,
    damaged: bool,
}

/// The length of a ring for keys of a length, and the slot of the record's key.
type Ring = (fn(usize) -> usize, usize);

type Row = (u64, fn(&Case) -> bool);

/// The refusals in the order in which they are given, each with its condition.
const REFUSALS: [Row; 10] = [
    (1, |c| !KEY_LENS.contains(&c.key_len)),
    (11, |c| !(1..=RING_MAX).any(|count| c.ring_len() == count * c.key_len)),
    (10, |c| c.header.0[1] == 0),
    (2, |c| c.header.0.len() > STRINGS_MAX),
    (3, |c| c.header.0.iter().map(|&len| len as u64).sum::<u64>() != c.header.1 as u64),
    (5, |c| c.function != Seal && c.input_len < TAG_LEN),
    (4, |c| c.function.plain_len(c.input_len) > LIMIT),
    (6, |c| c.room().output < c.function.output_need(c.input_len)),
    (7, |c| c.room().scratch < c.function.scratch_need(c.input_len)),
    (8, |c| c.function != Seal && c.damaged && c.input_len >= TAG_LEN),
];

/// Those that leave no record that a peer could seal.
const UNUSABLE: [u64; 7] = [1, 11, 10, 2, 3, 5, 4];

/// A sealed string under 16 bytes is not too long, needs no output and has no tag.
const NEVER_TOGETHER: [(u64, u64); 3] = [(5, 4), (5, 6), (5, 8)];

/// The functions, each with the rings to give it, and the refusals that it never gives.
const FUNCTIONS: [(fn(usize) -> Function, &[Ring], &[u64]); 3] =
    [(|_| Seal, &ONE_KEY, &[11, 5, 8]), (|_| Open, &ONE_KEY, &[11]), (OpenRing, &RINGS, &[])];

/// What a case is made of beside its header; the first of each is the ordinary one.
const ONE_KEY: [Ring; 1] = [(|key| key, 0)];
const RINGS: [Ring; 12] = [
    (|key| 2 * key, 1), (|key| key, 0), (|key| 2 * key, 0), (|key| 3 * key, 1), (|key| 4 * key, 0), (|key| 4 * key, 3),
    (|_| 0, 0), (|key| key.saturating_sub(1), 0), (|key| key + 1, 0), (|key| 3 * key + 16, 0), (|key| 4 * key + 1, 0),
    (|key| 5 * key, 4),
];
const KEYS: [usize; 12] = [32, 48, 64, 0, 16, 31, 33, 47, 49, 63, 65, 128];
const INPUTS: [usize; 9] = [40, 0, 15, 16, 17, LIMIT, LIMIT + 1, LIMIT + TAG_LEN, LIMIT + TAG_LEN + 1];
const ROOMS: [fn(usize) -> usize; 5] =
    [|need| need, |need| need + 5, |need| need.saturating_sub(1), |need| need.saturating_sub(16), |_| 0];

impl<'a> Case<'a> {
    fn room(&self) -> Room {
        let need = Room::need(self.function, self.input_len);
        Room { output: (self.output)(need.output), scratch: (self.scratch)(need.scratch) }
    }

    fn ring_len(&self) -> usize {
        (self.ring.0)(self.key_len)
    }

    fn all(
        function: fn(usize) -> Function,
        rings: &'a [Ring],
        lists: &'a [Lens],
        unusual: usize,
    ) -> impl Iterator<Item = Case<'a>> {
        let counts = [KEYS.len(), rings.len(), lists.len(), INPUTS.len(), ROOMS.len(), ROOMS.len(), 2];
        choices(counts, unusual).map(move |at| Case {
            function: function(KEYS[at[0]]),
            key_len: KEYS[at[0]],
            ring: rings[at[1]],
            header: &lists[at[2]],
            input_len: INPUTS[at[3]],
            output: ROOMS[at[4]],
            scratch: ROOMS[at[5]],
            damaged: at[6] == 1,
        })
    }
}

impl Calls<'_> {
    /// Every case with at most `unusual` things out of the ordinary.
    pub fn check(&self, libgcrypt: &Libgcrypt, random: &mut Random, unusual: usize) {
        let bytes = random.bytes(LIMIT + 64);
        for (function, rings, never) in FUNCTIONS {
            // Each case of opening runs under rings too (whole::run), so that here two are enough: 11 beside any other.
            let unusual = if rings.len() > 1 { unusual.min(2) } else { unusual };
            let mut together = Together::default();
            for case in Case::all(function, rings, self.lists, unusual) {
                let rows = REFUSALS.iter().filter(|(number, applies)| *number != self.without && applies(&case));
                let due: Vec<u64> = rows.map(|row| row.0).collect();
                together.note(&due);
                self.check_case(libgcrypt, random, &case, &due, &bytes);
            }
            together.check(&format!("{:?}", function(0)), &REFUSALS.map(|row| row.0), |first, other| {
                let never = |number| number == self.without || never.contains(&number);
                never(first) || never(other) || NEVER_TOGETHER.contains(&(first, other))
            });
        }
    }

    fn check_case(&self, libgcrypt: &Libgcrypt, random: &mut Random, case: &Case, due: &[u64], bytes: &[u8]) {
        let (lens, header_len) = case.header;
        let header = Header { bytes: &bytes[1..1 + header_len], lens };
        let mut given = Given { key: &bytes[..case.ring_len()], header, input: &bytes[..case.input_len] };
        let plain = &bytes[..case.function.plain_len(case.input_len)];
        let mut sealed = vec![];
        if !due.iter().any(|number| UNUSABLE.contains(number)) {
            let key = &given.key[case.ring.1 * case.key_len..][..case.key_len];
            sealed = libgcrypt.seal(key, &header.strings(), plain);
            if case.function != Seal {
                if case.damaged {
                    random.flip(&mut sealed);
                }
                given.input = &sealed;
            }
        }
        let want = match (due.first(), case.function) {
            (Some(8), _) => Want::Forged,
            (Some(&number), _) => Want::Refused(number),
            (None, Seal) => Want::Written(&sealed),
            (None, Open) => Want::Written(plain),
            (None, OpenRing(_)) => Want::Opened(case.ring.1, plain),
        };
        whole::run(self.make, case.function, &given, case.room(), want);
    }
}
