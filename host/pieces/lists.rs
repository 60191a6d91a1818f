//! Lists of calls after any begin, from a key or from a head of the first header strings, each made from one seed: any
//! call in any stage, pieces at the edges of blocks and of the limit, outputs long enough or not. Answers, work, output
//! bytes and states are held against the model after every call.

use crate::call::{Call, Kind};
use crate::fields::Fields;
use crate::model::Model;
use crate::probe::{self, Base};
use crate::state::{Field, State, LEN};
use crate::Pieces;
use shared::check;
use shared::chosen;
use shared::context::{Context, Peers};
use shared::lent::Lent;
use shared::library::{KEY_LENS, LIMIT, TAG_LEN};
use shared::mac::Block;
use shared::probe::Report;
use shared::random::Random;
use shared::work;
use std::collections::{BTreeMap, BTreeSet};

const LISTS: u64 = 50_000;
/// One list in so many has a text at the limit.
const LARGE: usize = 100;
/// Lengths of pieces and of whole texts.
const EDGES: [usize; 12] = [0, 1, 15, 16, 17, 31, 32, 33, 47, 48, 100, 1000];

/// How often each call gave each number, and whether as many bytes as the limit allows were then added or fed.
type Tally = BTreeMap<(Kind, u64, bool), u64>;

/// What must also have been seen at the limit.
const AT_LIMIT: [(Kind, u64); 9] = [
    (Kind::Add, 0), (Kind::Add, 4), (Kind::Turn, 0), (Kind::Write, 0), (Kind::Close, 0),
    (Kind::Feed, 0), (Kind::Feed, 4), (Kind::Finish, 0), (Kind::Finish, 8),
];

/// Lists of many seeds, which bring every answer of every call.
pub fn run(pieces: &mut Pieces) {
    let mut tally = Tally::new();
    let mut forms = BTreeSet::new();
    let seeds = (0..LISTS).map(|i| pieces.seed.wrapping_add(i));
    for seed in seeds.clone() {
        forms.insert(run_list(pieces, seed, false, &mut tally));
    }
    let calls: u64 = tally.values().sum();
    println!("pieces:     {LISTS} lists of seeds {} to {}, {calls} calls", pieces.seed, seeds.last().unwrap());
    for kind in Kind::ALL {
        for &number in [0].iter().chain(kind.refusals()) {
            let seen = tally.contains_key(&(kind, number, false));
            check::holds(|| format!("no list has {kind:?} with answer {number}"), seen);
        }
    }
    check::holds(
        || {
            format!(
                "sealers that wrote what was added, sealers that wrote other bytes, and openers, from keys and from heads, \
                 to stage 0 and not: lists have {forms:?}"
            )
        },
        forms.len() == 12,
    );
    for (kind, number) in AT_LIMIT {
        let seen = tally.contains_key(&(kind, number, true));
        check::holds(|| format!("no list has {kind:?} with answer {number} at the limit"), seen);
    }
}

/// The list of one seed, each call printed.
pub fn show(pieces: &mut Pieces) {
    run_list(pieces, pieces.seed, true, &mut Tally::new());
}

/// What begin is given, and the bytes that the list is to add or feed if nothing comes between.
struct Start {
    context: Context,
    /// How many strings a head has, from which it then begins with the others.
    split: Option<usize>,
    tag: Option<Block>,
    text: Vec<u8>,
}

impl Start {
    fn random(random: &mut Random, peers: &Peers) -> Start {
        let key_len = random.pick(&KEY_LENS);
        let strings = if random.once_in(20) { 126 } else { random.below(4) };
        let lens = (0..strings).map(|_| random.pick(&[0, 1, 12, 15, 16, 17, 20, 33])).collect();
        let context = Context::random(random, key_len, lens);
        let split = random.once_in(2).then(|| random.below(strings + 1));
        let len = match random.below(LARGE) {
            0 => LIMIT - random.pick(&[0, 0, 0, 1, 16, 33]),
            draw if draw % 2 == 0 => random.pick(&EDGES),
            _ => random.below(300),
        };

        // A third of the longer texts have a tag from which the counter carries within the text.
        let mut plain = random.bytes(len);
        let carrying = |random: &mut Random| {
            let at = 1 + random.below(len.div_ceil(16).max(2) - 1) as u64;
            let end = chosen::carrying(random.pick(&chosen::CARRIES), at);
            chosen::tag(random, &end)
        };
        if len >= 32 && random.once_in(3) {
            let tag = carrying(random);
            plain = chosen::plaintext(&peers.libcrypto, &context.key, &context.strings(), &tag, plain);
        }
        if random.once_in(2) {
            return Start { context, split, tag: None, text: plain };
        }

        // A quarter of the openers get a forged string.
        let mut text = peers.seal(&context, &plain);
        let mut tag: Block = text.drain(..TAG_LEN).collect::<Vec<u8>>().try_into().unwrap();
        match random.below(12) {
            0 => tag = carrying(random),
            1 => _ = random.flip(&mut tag),
            2 => _ = random.flip(&mut text),
            _ => (),
        }
        Start { context, split, tag: Some(tag), text }
    }

    /// Begins, with a head of the first strings where the list is split: the report, and the head's work.
    fn begin(&self, state: &mut State) -> (Report, u64) {
        let (key, header) = (Base::Key(&self.context.key), self.context.header());
        let tag = self.tag.as_ref().map(|tag| &tag[..]);
        let Some(split) = self.split else { return (probe::begin(key, header, tag, state), 0) };
        let [first, rest] = header.split(split);
        match probe::make(key, first) {
            ((0, 0, work), head) => (probe::begin(Base::Head(&head), rest, tag, state), work),
            (refused, _) => (refused, 0),
        }
    }

    /// The work of the head, where there is one, and of begin.
    fn works(&self) -> [u64; 2] {
        let [first, rest] = self.context.header().split(self.split.unwrap_or(0)).map(|header| work::strings(header.lens));
        if self.split.is_some() { [work::KEY + first, rest] } else { [0, work::KEY + rest] }
    }
}

/// A list of calls under way.
struct List<'a> {
    pieces: &'a Pieces,
    seed: u64,
    random: Random,
    start: &'a Start,
    /// How many bytes of the text there is room for.
    goal: usize,
    model: Model<'a>,
    fields: Fields<'a>,
    /// The state that begin gave, and the one that the calls since have made of it.
    begun: State,
    state: State,
    /// The opener's one output, as the calls left it and as the model has it.
    one: Option<(Lent, Lent)>,
    /// Whether writes bring other bytes than were added.
    other_writes: bool,
    /// What turn and the writes gave.
    gave: Vec<u8>,
    /// The work of begin and of all calls.
    work: u64,
    calls: usize,
    /// Whether each call is printed.
    talks: bool,
}

/// Runs the list of a seed. Says whether its begin was an opener's, whether from a head, whether other bytes were
/// written than were added, and whether it came to stage 0.
fn run_list(pieces: &Pieces, seed: u64, talks: bool, tally: &mut Tally) -> [bool; 4] {
    let mut random = Random(seed);
    let start = Start::random(&mut random, &pieces.peers);
    let mut state = State([0xa5; LEN]);
    let (begun, head_work) = start.begin(&mut state);

    let len = start.text.len();
    let one_len = match random.below(8) {
        0 => len.saturating_sub(1),
        1 => random.below(len + 1),
        2 => len + 1 + random.below(40),
        _ => len,
    };
    let one = start.tag.map(|_| (Lent::new(one_len), Lent::new(one_len)));
    let mut list = List {
        pieces,
        seed,
        start: &start,
        goal: if one.is_some() { len.min(one_len) } else { len },
        model: Model::new(&pieces.peers, &start.context, start.tag),
        fields: Fields::new(&pieces.peers, &start.context),
        begun: state.clone(),
        state,
        one,
        other_writes: random.once_in(4),
        gave: vec![],
        work: begun.2,
        calls: 0,
        talks,
        random,
    };
    let works = start.works();
    let what = || format!("{}, begin: expected (0, 0) and works {works:?}, got {begun:?} after {head_work}", list.name());
    check::holds(what, begun == (0, 0, works[1]) && head_work == works[0]);
    list.state.check(|| format!("{}, begin", list.name()), &list.fields.state(&list.model));
    let most = 1 + list.random.below(40);
    while list.calls < most && (list.model.stage != 0 || !list.random.once_in(3)) {
        let (kind, number) = list.call();
        *tally.entry((kind, number, list.model.a.len() == LIMIT)).or_default() += 1;
    }
    list.end();
    let others = !list.model.a.starts_with(&list.model.w);
    [start.tag.is_some(), start.split.is_some(), others, list.model.stage == 0]
}

impl List<'_> {
    fn name(&self) -> String {
        format!("list of seed {}", self.seed)
    }

    /// Mostly a call that the stage wants: more of the same, or the stage's end where all is there.
    fn kind(&mut self) -> Kind {
        let (a, w) = (self.model.a.len(), self.model.w.len());
        let (more, end, all) = match self.model.stage {
            1 => (Kind::Add, Kind::Turn, a >= self.goal),
            2 => (Kind::Write, Kind::Close, w >= a),
            3 => (Kind::Feed, Kind::Finish, a >= self.goal),
            _ => return self.random.pick(&Kind::ALL),
        };
        if self.random.once_in(8) {
            return self.random.pick(&Kind::ALL);
        }
        let ends = if all { !self.random.once_in(3) } else { self.random.once_in(30) };
        if ends { end } else { more }
    }

    /// A piece that goes on where the last one ended, with noise where the text or what was added is at its end.
    fn piece(&mut self, kind: Kind) -> Vec<u8> {
        let (a, w) = (&self.model.a, &self.model.w);
        let (source, at, most) = match kind {
            Kind::Add | Kind::Feed => (&self.start.text[..self.goal], a.len(), LIMIT - a.len()),
            Kind::Write => (&a[..], w.len(), a.len() - w.len()),
            _ => return vec![],
        };
        let rest = &source[at.min(source.len())..];
        let len = match self.random.below(32) {
            0..6 => rest.len(),
            6 => rest.len() + 1,
            7..9 => rest.len() / 2,
            9 => most + self.random.pick(&[1, 2, 16, 1000]),
            10..26 if !rest.is_empty() => self.random.pick(&EDGES).min(rest.len()),
            _ => self.random.pick(&EDGES),
        };
        let other = kind == Kind::Write && self.other_writes || self.random.once_in(32);
        let going_on = if other { 0 } else { len.min(rest.len()) };
        let from = self.random.below(64);
        [&rest[..going_on], &self.pieces.noise[from..from + len - going_on]].concat()
    }

    /// The length of an output where `need` bytes are needed.
    fn room(&mut self, need: usize) -> usize {
        match self.random.below(8) {
            0 => need.saturating_sub(1),
            1 => self.random.below(need + 1),
            2 => need + 1 + self.random.below(40),
            _ => need,
        }
    }

    /// One call: its kind and its number.
    fn call(&mut self) -> (Kind, u64) {
        let kind = self.kind();
        let call = Call { kind, piece: self.piece(kind) };
        let room = match call.output_need(self.model.a.len()) {
            Some(need) => self.room(need),
            None => 0,
        };
        // Of the opener's one output, only the first bytes are lent now and then.
        let one = if matches!(kind, Kind::Feed | Kind::Finish) { self.one.take() } else { None };
        let keeps = one.is_some();
        let (mut output, mut wanted) = one.unwrap_or_else(|| (Lent::new(room), Lent::new(room)));
        let len = if keeps && self.random.once_in(4) { room.min(output.len()) } else { output.len() };

        let before = self.state.clone();
        let want = self.model.call(&call, &mut wanted.slice()[..len]);
        let got = probe::step(&mut self.state, &call, &mut output.slice()[..len]);
        self.calls += 1;

        let what = || format!("{}, call {} ({call}, output of {len} bytes)", self.name(), self.calls);
        if self.talks {
            println!("{}: {got:?}", what());
        }
        check::holds(|| format!("{}: expected number, length and work {want:?}, got {got:?}", what()), got == want);
        output.check_same(|part| format!("{}: output, {part}", what()), &wanted);
        self.check_state(what, kind, want.0, &before);
        if want.0 == 0 && matches!(kind, Kind::Turn | Kind::Write) {
            self.gave.extend(&output.slice()[..want.1 as usize]);
        }
        if keeps {
            self.one = Some((output, wanted));
        }
        self.work += got.2;
        (kind, want.0)
    }

    /// The state after a call: as it was where the call was refused, else the model's, with
    /// the call's own fields changed.
    fn check_state(&self, what: impl Fn() -> String, kind: Kind, number: u64, before: &State) {
        if ![0, 8].contains(&number) {
            return self.state.check(|| format!("{}: refused", what()), before);
        }
        self.state.check(&what, &self.fields.state(&self.model));
        let own: &[Field] = match kind {
            Kind::Add => &[Field::Chain, Field::Total, Field::TailLen, Field::Tail],
            Kind::Turn => &[Field::Stage, Field::V],
            Kind::Write => &[Field::Kept, Field::Written],
            Kind::Feed => &[Field::Chain, Field::Kept, Field::Total, Field::TailLen, Field::Tail],
            Kind::Close | Kind::Finish => &Field::ALL,
        };
        let changed = self.state.changed(before);
        check::holds(|| format!("{}: changed {changed:?}", what()), changed.iter().all(|field| own.contains(field)));
    }

    /// The list's end: the state is that of the same bytes in one piece, tag and writes are the first bytes of sealing,
    /// and begin and all calls to stage 0 together took the whole call's work less the head's.
    fn end(&self) {
        let what = |does: &str| format!("{}, after {} calls: {does}", self.name(), self.calls);
        let one_piece = || what("the same bytes in one piece");
        self.state.check(one_piece, &self.one_piece(one_piece));
        if !self.gave.is_empty() && self.model.a.starts_with(&self.model.w) {
            let sealed = self.pieces.peers.seal(&self.start.context, &self.model.a);
            check::bytes(|| what("tag and writes beside sealing"), &sealed[..TAG_LEN + self.model.w.len()], &self.gave);
        }
        if self.model.stage == 0 {
            let want = work::whole(&self.start.context.lens, self.model.a.len()) - self.start.works()[0];
            check::holds(|| what(&format!("expected a work of {want} in all, got {}", self.work)), self.work == want);
        }
    }

    /// The state of the same bytes given in one piece after the same begin.
    fn one_piece(&self, what: impl Fn() -> String) -> State {
        let (a, w) = (&self.model.a, &self.model.w);
        let calls: &[(Kind, &[u8])] = match self.model.stage {
            0 => return State::ENDED,
            1 => &[(Kind::Add, a)],
            2 => &[(Kind::Add, a), (Kind::Turn, &[]), (Kind::Write, w)],
            _ => &[(Kind::Feed, a)],
        };
        probe::states(&self.begun, calls, what).pop().unwrap()
    }
}
