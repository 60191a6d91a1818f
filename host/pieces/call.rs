//! The six calls on a state.

use shared::library::TAG_LEN;
use std::fmt;

#[derive(Clone, Copy, PartialEq, Eq, PartialOrd, Ord, Debug)]
pub enum Kind {
    Add,
    Turn,
    Write,
    Close,
    Feed,
    Finish,
}

impl Kind {
    pub const ALL: [Kind; 6] = [Kind::Add, Kind::Turn, Kind::Write, Kind::Close, Kind::Feed, Kind::Finish];

    /// The stage that the call wants.
    pub fn wants(self) -> u64 {
        match self {
            Kind::Add | Kind::Turn => 1,
            Kind::Write | Kind::Close => 2,
            Kind::Feed | Kind::Finish => 3,
        }
    }

    /// The refusals that the call can give, in the order in which they are given.
    pub fn refusals(self) -> &'static [u64] {
        match self {
            Kind::Add => &[9, 4],
            Kind::Turn => &[9, 6],
            Kind::Write | Kind::Feed => &[9, 4, 6],
            Kind::Close => &[9],
            Kind::Finish => &[9, 6, 8],
        }
    }
}

/// A call with its piece, which is empty where the call has none.
pub struct Call {
    pub kind: Kind,
    pub piece: Vec<u8>,
}

impl Call {
    /// The output's least length on a state with that total; none where no output is lent.
    pub fn output_need(&self, total: usize) -> Option<usize> {
        match self.kind {
            Kind::Add | Kind::Close => None,
            Kind::Turn => Some(TAG_LEN),
            Kind::Write => Some(self.piece.len()),
            Kind::Feed | Kind::Finish => Some(total.saturating_add(self.piece.len())),
        }
    }
}

impl fmt::Display for Call {
    fn fmt(&self, f: &mut fmt::Formatter) -> fmt::Result {
        match self.kind {
            Kind::Add | Kind::Write | Kind::Feed => write!(f, "{:?} of {} bytes", self.kind, self.piece.len()),
            _ => write!(f, "{:?}", self.kind),
        }
    }
}
