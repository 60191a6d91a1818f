//! Prepared heads: every split of a list into a head's strings and the rest, heads with a field spoiled,
//! and a wall unit's records from one head.

use crate::begins::{Case, Gives};
use crate::call::{Call, Kind};
use crate::fields::Fields;
use crate::head::Head;
use crate::headers::{PIECE_LENS, PLAIN_LENS, STRING_LENS, WRONG_LISTS};
use crate::probe::{self, Base};
use crate::spoiled;
use crate::state::{Field, State};
use crate::Pieces;
use shared::check;
use shared::context::{Context, Peers};
use shared::lent::Lent;
use shared::library::{Function, KEY_LENS, LIMIT, TAG_LEN};
use shared::probe::{records, whole, Answer, Report};
use shared::random::Random;
use shared::whole::{self, Header, Room, Want};
use shared::work;
use Function::{Open, Seal};

/// How often each count of strings is split at every place.
const SPLITS: [(usize, usize); 6] = [(0, 40), (1, 40), (2, 40), (3, 40), (5, 20), (126, 2)];

/// Every split of lists with these counts of strings, half of which have empty strings alone.
pub fn splits(Pieces { peers, random, .. }: &mut Pieces) {
    for key_len in KEY_LENS {
        for (count, times) in SPLITS {
            for time in 0..times {
                let mut string_len = || if time % 2 == 0 { random.pick(&STRING_LENS) } else { 0 };
                let lens = (0..count).map(|_| string_len()).collect();
                let context = Context::random(random, key_len, lens);
                for at in 0..=count {
                    split(peers, random, &context, at);
                }
            }
        }
    }
}

/// The call succeeds with length 0 and the work of strings after a key or a head.
fn done(what: impl Fn() -> String, base: Base, header: Header, report: Report) {
    let want = (0, 0, base.work(header.lens));
    check::holds(|| format!("{}: expected {want:?}, got {report:?}", what()), report == want);
}

/// A head of strings after a key or a head.
pub fn made(base: Base, header: Header) -> Head {
    let (report, head) = probe::make(base, header);
    done(|| format!("a head, header {header}"), base, header, report);
    head
}

/// The head of a list's first strings is the model's. What begins or goes on from it is what the undivided list gives.
fn split(peers: &Peers, random: &mut Random, context: &Context, at: usize) {
    let (key, [first, rest]) = (Base::Key(&context.key), context.header().split(at));
    let what = || format!("key of {} bytes, header {}, split at {at}", context.key.len(), context.header());
    let head = made(key, first);
    head.check(what, &Fields::new(peers, &Context::new(&context.key, first)).head);

    let all = Fields::new(peers, context).head;
    made(key, context.header()).check(what, &all);
    made(Base::Head(&head), rest).check(what, &all);
    let [next, last] = rest.split(random.below(rest.lens.len() + 1));
    made(Base::Head(&made(Base::Head(&head), next)), last).check(what, &all);

    for sum in [126, 127] {
        let goes_on = check_all(peers, &context.key, &head, &vec![0; sum - at]);
        check::holds(|| format!("{}: {sum} strings go on: {goes_on}", what()), goes_on == (sum == 126));
    }

    let n = random.pick(&PLAIN_LENS);
    let (plain, mut tag) = (random.bytes(n), [0; TAG_LEN]);
    for peer in peers.taking(n) {
        let sealed = peer.seal(&context.key, &context.strings(), &plain);
        record(random, &head, rest, &plain, &sealed, || format!("{}, {n} bytes by {}", what(), peer.name()));
        tag.copy_from_slice(&sealed[..TAG_LEN]);
    }
    for tag in [None, Some(tag)] {
        let begun = |base, header| {
            let mut state = State::ENDED;
            let report = probe::begin(base, header, tag.as_ref().map(|tag| &tag[..]), &mut state);
            done(what, base, header, report);
            state
        };
        let (undivided, from_head) = (begun(key, context.header()), begun(Base::Head(&head), rest));
        from_head.check(|| format!("{}: beside the undivided list", what()), &undivided);
        from_head.check(what, &all.start(tag));
    }
}

/// A record by pieces from a head: sealed, opened, and refused where it is damaged, each
/// with the work of the rest alone.
pub fn record(random: &mut Random, head: &Head, rest: Header, plain: &[u8], sealed: &[u8], what: impl Fn() -> String) {
    let (piece, n) = (random.pick(&PIECE_LENS), plain.len());
    let adds = pieces(Kind::Add, plain, piece);
    let writes = pieces(Kind::Write, plain, piece);
    let calls = [&adds[..], &[(Kind::Turn, &[])], &writes, &[(Kind::Close, &[])]].concat();
    let work = work::strings(rest.lens) + work::plain(n);
    let mut output = Lent::new(sealed.len() + 3);
    let last = run(head, rest, None, &calls, output.slice());
    check::holds(|| format!("{}: sealing by pieces of {piece}: {last:?}", what()), last == ((0, 0), work));
    output.check(|part| format!("{}: sealed by pieces of {piece}: {part}", what()), sealed);

    let mut damaged = sealed.to_vec();
    random.flip(&mut damaged);
    for (sealed, answer, front) in [(sealed, (0, n as u64), plain), (&damaged, (8, 0), &vec![0; n])] {
        let (tag, text) = sealed.split_at(TAG_LEN);
        let calls = [&pieces(Kind::Feed, text, piece)[..], &[(Kind::Finish, &[])]].concat();
        let mut output = Lent::new(n + 3);
        let (last, want) = (run(head, rest, Some(tag), &calls, output.slice()), (answer, work));
        check::holds(|| format!("{}: opening by pieces of {piece}: {last:?}, not {want:?}", what()), last == want);
        output.check(|part| format!("{}: opened by pieces of {piece}: {part}", what()), front);
    }
}

/// A text as pieces of calls of one kind.
fn pieces(kind: Kind, text: &[u8], len: usize) -> Vec<(Kind, &[u8])> {
    text.chunks(len).map(|piece| (kind, piece)).collect()
}

/// Calls after a begin from a head: the last answer, or the first that is no success; and the work of all.
fn run(head: &Head, rest: Header, tag: Option<&[u8]>, calls: &[(Kind, &[u8])], output: &mut [u8]) -> (Answer, u64) {
    let mut state = State::ENDED;
    let (mut number, mut length, mut work) = probe::begin(Base::Head(head), rest, tag, &mut state);
    let mut written = 0;
    for &(kind, piece) in calls {
        if number != 0 {
            break;
        }
        let call = Call { kind, piece: piece.to_vec() };
        let more;
        (number, length, more) = probe::step(&mut state, &call, &mut output[written..]);
        work += more;
        // Tag and ciphertext stand one behind the other. The opener's calls have their one
        // output from its first byte on.
        if matches!(kind, Kind::Turn | Kind::Write) {
            written += length as usize;
        }
    }
    ((number, length), work)
}

/// The fields of a head that 9 does not judge.
const USED_AS_THEY_ARE: [Field; 4] = [Field::MacKeys, Field::CtrKeys, Field::L, Field::D];

/// Counts within the bound, at it and past it, to those that wrap with a few strings more.
const COUNTS: [u64; 21] = [
    0, 1, 2, 63, 124, 125, 126, 127, 128, 255, 256, (1 << 32) - 1, 1 << 32, (1 << 32) + 1, (1 << 32) + 126, (1 << 63) - 1,
    1 << 63, (1 << 63) + 126, u64::MAX - 125, u64::MAX - 1, u64::MAX,
];

/// Heads with each field spoiled in turn: what 9 does not judge is used as it is.
pub fn spoiled(Pieces { peers, random, noise, .. }: &mut Pieces) {
    for key_len in KEY_LENS {
        let good = Fields::new(peers, &Context::random(random, key_len, vec![20, 12])).head;
        let with_width = |&width: &u64| {
            let mut head = good.clone();
            head.begun.set_number(Field::Width, width);
            head
        };
        let with_count = |&count: &u64| Head { count, ..good.clone() };
        let judged = spoiled::ANY_WIDTHS.iter().map(with_width).chain(COUNTS.iter().map(with_count)).chain([Head::ZERO]);
        let mut accepted = 0;
        for head in judged {
            for rest in rests(head.count) {
                accepted += check_all(peers, noise, &head, &rest) as usize;
            }
        }
        check::holds(|| format!("{accepted} spoiled heads were accepted"), accepted > 0);

        let begun = spoiled::changed(random, &good.begun, &USED_AS_THEY_ARE);
        for (field, head) in begun.into_iter().map(|(field, begun)| (field, Head { begun, ..good.clone() })) {
            for rest in [&[][..], &[0], &[16], &[33, 0, 15]] {
                let accepted = check_all(peers, noise, &head, rest);
                check::holds(|| format!("a head with {field:?} changed was refused"), accepted);
            }
        }
    }
}

/// Lists that bring a count to 126 and past it, in 64 bits to 0 and past it, and a few more.
fn rests(count: u64) -> Vec<Vec<u32>> {
    let counts = [0, 1, 2, 126, 127].into_iter().chain([126, 127, 0, 1].map(|sum: u64| sum.wrapping_sub(count)));
    counts.filter(|&count| count <= 300).map(|count| vec![1; count as usize]).collect()
}

/// Extending a head and both begins from it, with strings and a tag from some bytes; whether all went on.
fn check_all(peers: &Peers, bytes: &[u8], head: &Head, lens: &[u32]) -> bool {
    let header = Header { bytes: &bytes[..lens.iter().sum::<u32>() as usize], lens };
    let all = [Gives::Head, Gives::Sealer, Gives::Opener(&bytes[..TAG_LEN])];
    all.map(|gives| Case { base: Base::Head(head), header, gives }.check(peers).is_empty()) == [true; 3]
}

/// How many records a wall unit sends, and the bytes of one.
const RECORDS: usize = 300;
const RECORD_LEN: usize = 40;

/// Gym, wall and lane are worked through once. Each record has its number as the last string.
pub fn wall_unit(Pieces { peers, random, .. }: &mut Pieces) {
    let strings: [&[u8]; 3] = [b"gym of the two towers", b"wall 3, left", b"lane 17"];
    let lens = strings.map(|string| string.len() as u32);
    for key_len in KEY_LENS {
        let (key, header) = (random.bytes(key_len), strings.concat());
        let head = made(Base::Key(&key), Header { bytes: &header, lens: &lens });
        for number in 0..RECORDS as u64 {
            let plain = random.bytes(RECORD_LEN);
            let last = number.to_be_bytes();
            let all = Header { bytes: &[&header[..], &last].concat(), lens: &[&lens[..], &[8]].concat() };
            let context = Context::new(&key, all);
            for peer in peers.taking(RECORD_LEN) {
                let sealed = peer.seal(&key, &context.strings(), &plain);
                for (function, input, want) in [(Seal, &plain, &sealed), (Open, &sealed, &plain)] {
                    let room = Room::need(function, input.len());
                    whole::run(whole, function, &context.with(input), room, Want::Written(want));
                }
                let rest = Header { bytes: &last, lens: &[8] };
                let what = || format!("record {number} by {}, key of {key_len} bytes", peer.name());
                record(random, &head, rest, &plain, &sealed, what);
            }
        }
        all_records(peers, random, &Context { key, header, lens: lens.to_vec() });
    }
}

/// Records with no string of their own, in one call that makes one head.
fn all_records(peers: &Peers, random: &mut Random, context: &Context) {
    let plain = random.bytes(RECORDS * RECORD_LEN);
    for peer in peers.taking(RECORD_LEN) {
        let seal = |plain| peer.seal(&context.key, &context.strings(), plain);
        let sealed: Vec<u8> = plain.chunks(RECORD_LEN).flat_map(seal).collect();
        let (mut damaged, mut left) = (sealed.clone(), plain.clone());
        let at = random.below(RECORDS);
        random.flip(&mut damaged[at * (RECORD_LEN + TAG_LEN)..][..RECORD_LEN + TAG_LEN]);
        left[at * RECORD_LEN..][..RECORD_LEN].fill(0);
        let opened = (0, RECORD_LEN as u64);
        let cases = [(Seal, &plain, (0, 0), &sealed), (Open, &sealed, opened, &plain), (Open, &damaged, (8, 0), &left)];
        for (function, input, answer, front) in cases {
            let what = || format!("{function:?}, {RECORDS} records by {} from one head", peer.name());
            let mut output = Lent::new(front.len() + 3);
            let got = records(function, &context.with(input), RECORD_LEN, output.slice());
            check::holds(|| format!("{}: expected {answer:?}, got {got:?}", what()), got == answer);
            output.check(|part| format!("{}: output, {part}", what()), front);

            let refused = |context: &Context, n, less, number| {
                let mut output = Lent::new(front.len() - less);
                let got = records(function, &context.with(input), n, output.slice());
                check::holds(|| format!("{}, n {n}: expected {number}, got {got:?}", what()), got == (number, 0));
                output.check(|part| format!("{}, n {n}: output, {part}", what()), &[]);
            };
            // No bytes a record, too many, not whole records, too short an output; and what makes no head.
            for (n, less, number) in [(0, 0, 9), (LIMIT + 1, 0, 9), (RECORD_LEN + 1, 0, 9), (RECORD_LEN, 1, 6)] {
                refused(context, n, less, number);
            }
            refused(&Context::new(&context.key[1..], context.header()), RECORD_LEN, 0, 1);
            for (number, apply) in WRONG_LISTS {
                let mut context = context.clone();
                apply(&mut context);
                refused(&context, RECORD_LEN, 0, number);
            }
        }
    }
}
