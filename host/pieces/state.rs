//! A stream state as the bytes in which the probe takes it and gives it back.

use shared::check;
use shared::mac::Block;
use std::ops::Range;
use Field::*;

pub const LEN: usize = 624;

#[derive(Clone, Copy, PartialEq, Eq, PartialOrd, Ord, Debug)]
pub enum Field {
    Stage,
    Width,
    MacKeys,
    CtrKeys,
    L,
    D,
    Chain,
    V,
    Kept,
    Total,
    Written,
    TailLen,
    Tail,
}

impl Field {
    pub const ALL: [Field; 13] = [Stage, Width, MacKeys, CtrKeys, L, D, Chain, V, Kept, Total, Written, TailLen, Tail];

    /// Its place in the bytes, as in crates/probe/src/state.rt.
    fn place(self) -> Range<usize> {
        match self {
            Stage => 0..1,
            Width => 1..9,
            MacKeys => 9..249,
            CtrKeys => 249..489,
            L => 489..505,
            D => 505..521,
            Chain => 521..537,
            V => 537..553,
            Kept => 553..569,
            Total => 569..577,
            Written => 577..585,
            TailLen => 585..593,
            Tail => 593..LEN,
        }
    }
}

#[derive(Clone, PartialEq)]
pub struct State(pub [u8; LEN]);

impl State {
    pub const ENDED: State = State([0; LEN]);

    /// The place of what begin makes and no later call changes: key width, round keys, L and D.
    pub const BEGUN: Range<usize> = 1..521;

    pub fn get(&self, field: Field) -> &[u8] {
        &self.0[field.place()]
    }

    pub fn get_mut(&mut self, field: Field) -> &mut [u8] {
        &mut self.0[field.place()]
    }

    /// A number, its lowest byte first.
    pub fn number(&self, field: Field) -> u64 {
        self.get(field).iter().rev().fold(0, |n, &byte| n << 8 | byte as u64)
    }

    pub fn set_number(&mut self, field: Field, n: u64) {
        let bytes = n.to_le_bytes();
        let place = self.get_mut(field);
        place.copy_from_slice(&bytes[..place.len()]);
    }

    pub fn block(&self, field: Field) -> Block {
        self.get(field).try_into().unwrap()
    }

    pub fn set(&mut self, field: Field, bytes: &[u8]) {
        self.get_mut(field).copy_from_slice(bytes);
    }

    /// The tail's used bytes with zeros behind them, and how many they are.
    pub fn set_tail(&mut self, used: &[u8]) {
        self.set_number(TailLen, used.len() as u64);
        let tail = self.get_mut(Tail);
        tail.fill(0);
        tail[..used.len()].copy_from_slice(used);
    }

    /// How many bytes of the key stream are used: those written in stage 2, those fed in stage 3.
    pub fn stream_place(&self) -> usize {
        match self.number(Stage) {
            2 => self.number(Written) as usize,
            3 => self.number(Total) as usize,
            _ => 0,
        }
    }

    /// The fields that differ.
    pub fn changed(&self, other: &State) -> Vec<Field> {
        Field::ALL.into_iter().filter(|&field| self.get(field) != other.get(field)).collect()
    }

    /// It is `expected`; if not, the message names the first field that differs.
    pub fn check(&self, what: impl Fn() -> String, expected: &State) {
        match self.changed(expected).first() {
            Some(&field) => {
                check::bytes(|| format!("{}: state, {field:?}", what()), expected.get(field), self.get(field))
            }
            None => check::holds(what, self == expected),
        }
    }
}

/// The length of the tail, rule 9.10.
pub fn tail_len(total: u64) -> usize {
    if total < 16 { total as usize } else { 16 + (total % 16) as usize }
}
