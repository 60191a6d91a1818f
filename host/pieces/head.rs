//! A prepared head as the bytes in which the probe takes it and gives it back, and what begins from it.

use crate::state::{Field, State};
use crate::steps;
use shared::check;
use shared::mac::Block;

/// Key width, round keys, L and D as in a state, and then the count, as in crates/probe/src/heads.rt.
pub const LEN: usize = 528;
const COUNT: usize = LEN - 8;

#[derive(Clone)]
pub struct Head {
    /// Its fields but the count, in a state that has no others.
    pub begun: State,
    pub count: u64,
}

impl Head {
    pub const ZERO: Head = Head { begun: State::ENDED, count: 0 };

    pub fn from_bytes(bytes: [u8; LEN]) -> Head {
        let mut begun = State::ENDED;
        begun.0[State::BEGUN].copy_from_slice(&bytes[..COUNT]);
        Head { begun, count: u64::from_le_bytes(bytes[COUNT..].try_into().unwrap()) }
    }

    pub fn to_bytes(&self) -> [u8; LEN] {
        [&self.begun.0[State::BEGUN], &self.count.to_le_bytes()].concat().try_into().unwrap()
    }

    /// The head with the next strings, by the model of steps: D goes on over them, and they are counted.
    pub fn extended(&self, strings: &[&[u8]]) -> Head {
        let mut begun = self.begun.clone();
        begun.set(Field::D, &steps::header_result(&self.begun, strings));
        Head { begun, count: self.count + strings.len() as u64 }
    }

    /// The state that it starts: an opener's where there is a tag, else a sealer's.
    pub fn start(&self, tag: Option<Block>) -> State {
        let mut state = self.begun.clone();
        state.set_number(Field::Stage, if tag.is_some() { 3 } else { 1 });
        state.set(Field::V, &tag.unwrap_or_default());
        state
    }

    /// It is `expected`; if not, the message names the first field that differs.
    pub fn check(&self, what: impl Fn() -> String, expected: &Head) {
        self.begun.check(|| format!("{}: head", what()), &expected.begun);
        let (want, got) = (expected.count, self.count);
        check::holds(|| format!("{}: head: expected count {want}, got {got}", what()), got == want);
    }
}
