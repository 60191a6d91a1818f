//! The table of answers for making and extending a head and for every begin, and the
//! head or state that each hands back.

use crate::fields::Fields;
use crate::head::Head;
use crate::headers;
use crate::probe::{self, Base};
use crate::state::{Field, State, LEN};
use crate::steps::WIDTHS;
use crate::Pieces;
use shared::check;
use shared::context::{Context, Peers};
use shared::library::{KEY_LENS, TAG_LEN};
use shared::table::{choices, Together};
use shared::whole::Header;
use shared::work;

/// What a call gives.
#[derive(Clone, Copy)]
pub enum Gives<'a> {
    Head,
    Sealer,
    /// From a tag.
    Opener(&'a [u8]),
}

/// A call that takes header strings in after a key or a head.
pub struct Case<'a> {
    pub base: Base<'a>,
    pub header: Header<'a>,
    pub gives: Gives<'a>,
}

/// The refusals in the order in which they are given, each with its condition.
const REFUSALS: [(u64, fn(&Case) -> bool); 5] = [
    (1, |c| matches!(c.base, Base::Key(key) if !KEY_LENS.contains(&key.len()))),
    (9, |c| matches!(c.base, Base::Head(head) if !WIDTHS.contains(&head.begun.number(Field::Width)) || head.count > 126)),
    (2, |c| c.base.count().saturating_add(c.header.lens.len() as u64) > 126),
    (3, |c| c.header.lens.iter().map(|&len| len as u64).sum::<u64>() != c.header.bytes.len() as u64),
    (5, |c| matches!(c.gives, Gives::Opener(tag) if tag.len() != TAG_LEN)),
];

impl Base<'_> {
    /// The work of taking strings of these lengths in; a head's own is left out.
    pub fn work(&self, lens: &[u32]) -> u64 {
        let own = if let Base::Key(_) = self { work::KEY } else { 0 };
        own + work::strings(lens)
    }

    /// How many strings are taken in already.
    fn count(&self) -> u64 {
        match self {
            Base::Key(_) => 0,
            Base::Head(head) => head.count,
        }
    }
}

impl Case<'_> {
    fn name(&self) -> String {
        let call = match (self.base, self.gives) {
            (Base::Key(_), Gives::Head) => "make",
            (Base::Head(_), Gives::Head) => "extend",
            (_, Gives::Sealer) => "a sealer's begin",
            (_, Gives::Opener(_)) => "an opener's begin",
        };
        let base = match self.base {
            Base::Key(key) => format!("key of {} bytes", key.len()),
            Base::Head(head) => format!("head of width {} and {} strings", head.begun.number(Field::Width), head.count),
        };
        let tag = if let Gives::Opener(tag) = self.gives { format!(", tag of {} bytes", tag.len()) } else { String::new() };
        format!("{call}, {base}, header {}{tag}", self.header)
    }

    /// The head of all strings, where no refusal is due.
    fn head(&self, peers: &Peers) -> Head {
        match self.base {
            Base::Key(key) => Fields::new(peers, &Context::new(key, self.header)).head,
            Base::Head(head) => head.extended(&self.header.strings()),
        }
    }

    /// The call: its answer, and what it hands back. Gives the refusals that are due.
    pub fn check(&self, peers: &Peers) -> Vec<u64> {
        let due: Vec<u64> = REFUSALS.iter().filter(|(_, applies)| applies(self)).map(|row| row.0).collect();
        let want = match due.first() {
            Some(&number) => (number, 0, 0),
            None => (0, 0, self.base.work(self.header.lens)),
        };
        let check = |got| check::holds(|| format!("{}: expected {want:?}, got {got:?}", self.name()), got == want);
        let head = due.is_empty().then(|| self.head(peers));
        let begins = |tag: Option<&[u8]>| {
            let mut state = State([0xa5; LEN]);
            check(probe::begin(self.base, self.header, tag, &mut state));
            let expected = head.as_ref().map(|head| head.start(tag.map(|tag| tag.try_into().unwrap())));
            state.check(|| self.name(), &expected.unwrap_or(State::ENDED));
        };
        match self.gives {
            Gives::Head => {
                let (got, made) = probe::make(self.base, self.header);
                check(got);
                made.check(|| self.name(), head.as_ref().unwrap_or(&Head::ZERO));
            }
            Gives::Sealer => begins(None),
            Gives::Opener(tag) => begins(Some(tag)),
        }
        due
    }
}

const KEYS: [usize; 14] = [32, 48, 64, 0, 1, 16, 24, 31, 33, 47, 49, 63, 65, 128];
const TAGS: [usize; 7] = [16, 0, 1, 15, 17, 32, 1000];
const HEAD_WIDTHS: [u64; 8] = [16, 24, 32, 0, 15, 17, 33, (1 << 32) + 16];
const HEAD_COUNTS: [u64; 11] = [2, 0, 1, 124, 125, 126, 127, 1 << 32, (1 << 63) + 1, u64::MAX - 1, u64::MAX];

/// Every call that these make up.
pub fn run(Pieces { peers, random, .. }: &mut Pieces) {
    let lists = headers::lists();
    let bytes = random.bytes(1024);
    let good = Fields::new(peers, &Context::random(random, 32, vec![20, 12])).head;
    let heads = choices([HEAD_WIDTHS.len(), HEAD_COUNTS.len()], 2).map(|at| {
        let mut head = Head { begun: good.begun.clone(), count: HEAD_COUNTS[at[1]] };
        head.begun.set_number(Field::Width, HEAD_WIDTHS[at[0]]);
        head
    });
    let heads: Vec<Head> = heads.collect();
    let tags = TAGS.map(|len| Gives::Opener(&bytes[..len]));
    let bases = [(1, KEYS.map(|len| Base::Key(&bytes[..len])).to_vec()), (9, heads.iter().map(Base::Head).collect())];
    for (first, bases) in bases {
        for (gives, last) in [(&[Gives::Head][..], None), (&[Gives::Sealer], None), (&tags, Some(5))] {
            let mut together = Together::default();
            let mut name = String::new();
            for at in choices([bases.len(), lists.len(), gives.len()], 3) {
                let (lens, len) = &lists[at[1]];
                let header = Header { bytes: &bytes[7..7 + len], lens };
                let case = Case { base: bases[at[0]], header, gives: gives[at[2]] };
                together.note(&case.check(peers));
                name = case.name();
            }
            let order: Vec<u64> = [first, 2, 3].into_iter().chain(last).collect();
            together.check(&name, &order, |_, _| false);
        }
    }
}
