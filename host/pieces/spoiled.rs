//! Every call on states of every stage, good ones and ones with a field spoiled, held against the model of steps; and
//! with that the table of answers for piecewise calls.

use crate::call::{Call, Kind};
use crate::probe::{self, Base};
use crate::state::{tail_len, Field, State};
use crate::steps::{self, Case, REASONS};
use crate::Pieces;
use shared::check;
use shared::context::{Context, Peers};
use shared::lent::Lent;
use shared::library::{KEY_LENS, LIMIT, TAG_LEN};
use shared::random::Random;
use shared::table::Together;
use std::collections::{BTreeMap, BTreeSet};

const TOTALS: [usize; 15] = [0, 1, 14, 15, 16, 17, 30, 31, 32, 33, 46, 47, 48, 49, 100];
/// Key widths, and numbers that are none.
pub const ANY_WIDTHS: [u64; 20] = [
    0, 1, 8, 15, 16, 17, 23, 24, 25, 31, 32, 33, 48, 64, 255, 256 + 16, (1 << 32) + 16, (1 << 32) + 24, (1 << 63) + 32,
    u64::MAX,
];
/// The fields that 9 does not judge.
const USED_AS_THEY_ARE: [Field; 6] = [Field::MacKeys, Field::CtrKeys, Field::L, Field::D, Field::Chain, Field::V];
/// Those that it judges in part: the tail's unused bytes, and the kept block where no block of the key stream is begun.
const JUDGED_IN_PART: [Field; 2] = [Field::Tail, Field::Kept];

/// What the calls were seen to do.
#[derive(Default)]
struct Seen {
    together: BTreeMap<Kind, Together>,
    /// Calls refused with 9 for one reason alone.
    reasons: BTreeSet<(Kind, &'static str)>,
    /// Calls that went on, and with which field changed.
    accepted: BTreeSet<(Kind, Option<Field>)>,
}

pub fn run(Pieces { peers, random, noise, .. }: &mut Pieces) {
    let mut seen = Seen::default();
    for key_len in KEY_LENS {
        let context = Context::random(random, key_len, vec![20, 12]);
        for total in TOTALS {
            for good in good_states(peers, random, &context, total) {
                for (changed, state) in spoiled_states(random, &good) {
                    run_all(&state, changed, noise, &mut seen);
                }
                // At the limit outputs are long, so that of the changes only some are tried there,
                // and of the tail lengths all.
                if [16, 31].contains(&total) {
                    let states = spoiled_states(random, &with_more(&good, LIMIT));
                    for (i, (changed, state)) in states.into_iter().enumerate() {
                        if i % 23 == 0 || changed == Some(Field::TailLen) {
                            run_all(&state, changed, noise, &mut seen);
                        }
                    }
                }
            }
        }
    }
    run_all(&State::ENDED, None, noise, &mut seen);
    seen.check();
}

/// States with so many bytes added or fed: adding; writing with nothing, some and all
/// written; feeding a genuine string.
fn good_states(peers: &Peers, random: &mut Random, context: &Context, total: usize) -> Vec<State> {
    let plain = random.bytes(total);
    let sealed = peers.seal(context, &plain);
    let (tag, text) = sealed.split_at(TAG_LEN);
    let (some, others) = plain.split_at(total / 2);
    let sealer = [(Kind::Add, &plain[..]), (Kind::Turn, &[]), (Kind::Write, some), (Kind::Write, others)];
    let opener = [(Kind::Feed, text)];
    let states = |tag, calls| {
        let what = || format!("a good state of {total} bytes");
        let mut begun = State::ENDED;
        let report = probe::begin(Base::Key(&context.key), context.header(), tag, &mut begun);
        check::holds(|| format!("{}: begin: expected number 0, got {report:?}", what()), report.0 == 0);
        probe::states(&begun, calls, what)
    };
    [states(None, &sealer), states(Some(tag), &opener)].concat()
}

/// A state as if more blocks had gone through it, up to a total of at most `most`.
fn with_more(good: &State, most: usize) -> State {
    let mut state = good.clone();
    let more = (most as u64 - good.number(Field::Total)) / 16 * 16;
    for field in [Field::Total, Field::Written] {
        let n = good.number(field);
        state.set_number(field, if n == 0 { 0 } else { n + more });
    }
    with_its_tail_len(state)
}

/// A state with the tail length that its total has.
fn with_its_tail_len(mut state: State) -> State {
    state.set_number(Field::TailLen, tail_len(state.number(Field::Total)) as u64);
    state
}

/// The state itself, and with each field changed in turn; a total also with the tail length that goes with it.
fn spoiled_states(random: &mut Random, good: &State) -> Vec<(Option<Field>, State)> {
    let mut all = vec![(None, good.clone()), (Some(Field::Total), with_more(good, LIMIT + 16))];
    let (total, written) = (good.number(Field::Total), good.number(Field::Written));
    let big = [1 << 32, 1 << 63, u64::MAX];
    let totals = [0, 1, 15, 16, 17, 32, 33, total + 1, total + 16, LIMIT as u64 + 1, LIMIT as u64 + 16, (1 << 32) + total];
    let writtens = [0, 1, total, total + 1, total + 16, LIMIT as u64 + 1, (1 << 32) + written];
    let numbers = [
        (Field::Stage, (0..256).collect()),
        (Field::Width, ANY_WIDTHS.to_vec()),
        (Field::Total, [&totals[..], &big].concat()),
        (Field::Written, [&writtens[..], &big].concat()),
        (Field::TailLen, (0..=32).chain([(1 << 32) + good.number(Field::TailLen)]).chain(big).collect()),
    ];
    for (field, values) in numbers {
        for n in values {
            let mut state = good.clone();
            state.set_number(field, n);
            if field == Field::Total {
                all.push((Some(field), with_its_tail_len(state.clone())));
            }
            all.push((Some(field), state));
        }
    }

    let mut unjudged = vec![];
    for field in JUDGED_IN_PART {
        for at in 0..good.get(field).len() {
            let mut state = good.clone();
            state.get_mut(field)[at] ^= 1 + random.below(255) as u8;
            unjudged.push((field, state));
        }
    }
    unjudged.extend(changed(random, good, &[&USED_AS_THEY_ARE[..], &[Field::Kept]].concat()));
    for (field, state) in unjudged {
        // What finish accepts with that field.
        if good.number(Field::Stage) == 3 {
            let mut genuine = state.clone();
            genuine.set(Field::V, &steps::tag(&state));
            all.push((Some(field), genuine));
        }
        all.push((Some(field), state));
    }
    all
}

/// The state with a bit of each block of some fields changed in turn, and with each field made anew.
pub fn changed(random: &mut Random, good: &State, fields: &[Field]) -> Vec<(Field, State)> {
    let mut all = vec![];
    for &field in fields {
        let len = good.get(field).len();
        for at in (0..len).step_by(16) {
            let mut state = good.clone();
            random.flip(&mut state.get_mut(field)[at..at + 16]);
            all.push((field, state));
        }
        let mut state = good.clone();
        state.set(field, &random.bytes(len));
        all.push((field, state));
    }
    all
}

/// Every call on a state, with pieces that fit and that do not, and outputs long enough, longer and too short.
fn run_all(state: &State, changed: Option<Field>, noise: &[u8], seen: &mut Seen) {
    // A state with a total over the limit is refused, so that its outputs need not be as long.
    let total = Some(state.number(Field::Total) as usize).filter(|&total| total <= LIMIT).unwrap_or(40);
    let unwritten = total.saturating_sub(state.number(Field::Written) as usize);
    for kind in Kind::ALL {
        let pieces = match kind {
            Kind::Add | Kind::Feed => vec![0, 1, 17, LIMIT + 1 - total],
            Kind::Write => vec![0, 1, unwritten, unwritten + 1],
            _ => vec![0],
        };
        // Long pieces are for states near the limit.
        for n in pieces.into_iter().filter(|&n| n <= 1000) {
            let call = Call { kind, piece: noise[..n].to_vec() };
            let outputs = match call.output_need(total) {
                Some(need) => BTreeSet::from([need, need + 3, need.saturating_sub(1)]),
                None => BTreeSet::from([0]),
            };
            for len in outputs {
                run_one(state, changed, &call, len, seen);
            }
        }
    }
}

fn run_one(state: &State, changed: Option<Field>, call: &Call, len: usize, seen: &mut Seen) {
    let case = Case { state, call, output: len };
    let due = case.due();
    let (mut expected, mut wanted) = (state.clone(), Lent::new(len));
    let want = steps::step(&mut expected, call, due.first().copied(), wanted.slice());
    let (mut handed_back, mut output) = (state.clone(), Lent::new(len));
    let got = probe::step(&mut handed_back, call, output.slice());

    let what = || {
        let changed = changed.map_or("nothing".to_string(), |field| format!("{field:?}"));
        let [stage, width, total, written, tail_len] =
            [Field::Stage, Field::Width, Field::Total, Field::Written, Field::TailLen].map(|field| state.number(field));
        let kept = check::hex(state.get(Field::Kept));
        format!(
            "state with stage {stage}, width {width}, kept block {kept}, total {total}, written {written}, \
             tail length {tail_len} (changed: {changed}): {call}, output of {len} bytes, due {due:?}"
        )
    };
    check::holds(|| format!("{}: expected number, length and work {want:?}, got {got:?}", what()), got == want);
    output.check_same(|part| format!("{}: output, {part}", what()), &wanted);
    handed_back.check(what, &expected);

    seen.together.entry(call.kind).or_default().note(&due);
    let reasons: Vec<&str> = REASONS.iter().filter(|(_, applies)| applies(&case)).map(|(reason, _)| *reason).collect();
    if let [reason] = reasons[..] {
        seen.reasons.insert((call.kind, reason));
    }
    if due.is_empty() {
        seen.accepted.insert((call.kind, changed));
    }
}

impl Seen {
    /// Every pair of refusals was due at once, every reason for 9 alone, and every call went on with each field changed
    /// that 9 does not judge; with a kept block changed, every call that wants a stage with a key stream.
    fn check(&self) {
        for kind in Kind::ALL {
            self.together[&kind].check(&format!("{kind:?}"), kind.refusals(), |_, _| false);
            for (reason, _) in REASONS {
                let can_be = kind == Kind::Close || reason != "close before all is written";
                check::holds(
                    || format!("{kind:?}: 9 for one reason alone, {reason}: the states have it: {}", !can_be),
                    self.reasons.contains(&(kind, reason)) == can_be,
                );
            }
            for field in USED_AS_THEY_ARE.into_iter().chain(JUDGED_IN_PART) {
                let can_be = field != Field::Kept || kind.wants() != 1;
                check::holds(
                    || format!("{kind:?}: states with {field:?} changed were accepted: {}", !can_be),
                    self.accepted.contains(&(kind, Some(field))) == can_be,
                );
            }
        }
    }
}
