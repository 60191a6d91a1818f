//! The child's part: every row in one mode. Kinphlor and its peers take turns on the same input.

use crate::timing::{Beside, Mode, Row, LENS};
use shared::check::{self, fail};
use shared::library::{Args, Function, KEY_LENS};
use shared::peers::{Libcrypto, Libgcrypt, Peer};
use shared::random::Random;
use std::ffi::c_int;
use std::time::Duration;
use Function::{Open, OpenRing, Seal};

#[repr(C)]
struct Timespec {
    seconds: i64,
    nanoseconds: i64,
}

unsafe extern "C" {
    fn clock_gettime(clock: c_int, time: *mut Timespec) -> c_int;
}

const CLOCK_THREAD_CPUTIME_ID: c_int = 3;

/// The processor time of this thread: what the machine does for other programs is not in it.
fn processor_time() -> Duration {
    let mut time = Timespec { seconds: 0, nanoseconds: 0 };
    if unsafe { clock_gettime(CLOCK_THREAD_CPUTIME_ID, &mut time) } != 0 {
        fail("the machine does not tell processor time".to_string());
    }
    Duration::new(time.seconds as u64, time.nanoseconds as u32)
}

const AD_LEN: usize = 16;
const NONCE_LEN: usize = 12;

/// Turns in a row. In each turn every implementation runs for the sample's time at least: as many calls as that needs.
pub const TURNS: usize = 31;
const SAMPLE_TIME: Duration = Duration::from_millis(1);

/// All rows in one mode, written to standard output for the parent, after what each peer says of its instructions.
pub fn child(mode: &Mode) {
    let peers: [&dyn Peer; 2] = [&Libcrypto::new(), &Libgcrypt::without(mode.libgcrypt)];
    let said = peers.map(|peer| peer.instructions());
    check::holds(|| format!("the peers did not take the settings of mode {}: {said:?}", mode.name), mode.taken(&said));
    println!("{}", said.join("\n"));
    let mut random = Random(5297);
    for key_len in KEY_LENS {
        for len in LENS {
            let [key, ad, nonce, plain] = [key_len, AD_LEN, NONCE_LEN, len].map(|n| random.bytes(n));
            let header: [&[u8]; 2] = [&ad, &nonce];
            let sealed = peers[1].seal(&key, &header, &plain);
            for (function, input, want) in [(Seal, &plain, &sealed), (Open, &sealed, &plain)] {
                let mut call = Call {
                    function,
                    key: &key,
                    header,
                    joined: &header.concat(),
                    input,
                    output: vec![0; function.output_need(input.len())],
                    scratch: vec![0; function.scratch_need(input.len())],
                };
                let (ours, theirs) = measure(&mut call, peers.map(|peer| peer.takes(len).then_some(peer)), want);
                println!("{}", Row { key_len, len, function, ours, theirs }.to_line());
            }
        }
    }
}

/// Our time of a call, and the peers' beside it. All give the wanted bytes, or there is nothing to compare.
fn measure(call: &mut Call, peers: [Option<&dyn Peer>; 2], want: &[u8]) -> (f64, [Option<Beside>; 2]) {
    let all: Vec<Option<&dyn Peer>> = std::iter::once(None).chain(peers.into_iter().flatten().map(Some)).collect();
    for &by in &all {
        call.output.fill(0);
        call.scratch.fill(0);
        call.run(by);
        check::bytes(|| format!("{:?} by {}", call.function, by.map_or("us", |p| p.name())), want, &call.output);
    }
    let times = turns(TURNS, all.len(), &mut |which| call.run(all[which]));
    let mut rest = times[1..].iter();
    let theirs = peers.map(|peer| peer.and_then(|_| rest.next()).map(|t| beside(&times[0], t)));
    (median(times[0].iter().copied()), theirs)
}

/// A call on one input, by any of the implementations.
struct Call<'a> {
    function: Function,
    key: &'a [u8],
    header: [&'a [u8]; 2],
    joined: &'a [u8],
    input: &'a [u8],
    output: Vec<u8>,
    scratch: Vec<u8>,
}

impl Call<'_> {
    /// By a peer, or by us.
    fn run(&mut self, by: Option<&dyn Peer>) {
        let done = match (by, self.function) {
            (None, function) => {
                let args = Args {
                    key: self.key,
                    header: self.joined,
                    ad_len: AD_LEN as u32,
                    nonce_len: NONCE_LEN as u32,
                    input: self.input,
                };
                function.call(&args, &mut self.output, &mut self.scratch) == (0, 0, self.output.len() as u64)
            }
            (Some(peer), Seal) => {
                peer.seal_to(self.key, &self.header, self.input, &mut self.output);
                true
            }
            (Some(peer), Open) => peer.open_to(self.key, &self.header, self.input, &mut self.output),
            (Some(_), OpenRing(_)) => fail("no peer has a ring".to_string()),
        };
        if !done {
            fail("a call that is timed was refused".to_string());
        }
    }
}

/// The processor time of some calls of one of several implementations.
fn time(run: &mut dyn FnMut(usize), which: usize, calls: usize) -> Duration {
    let start = processor_time();
    for _ in 0..calls {
        run(which);
    }
    processor_time() - start
}

/// The nanoseconds of a call in each turn, for each of several implementations; `run` calls the one of a number.
pub fn turns(count: usize, several: usize, run: &mut dyn FnMut(usize)) -> Vec<Vec<f64>> {
    let counts: Vec<usize> = (0..several).map(|which| calls_for_a_sample(run, which)).collect();
    let mut times = vec![vec![]; several];
    for _ in 0..count {
        for (which, &calls) in counts.iter().enumerate() {
            times[which].push(time(run, which, calls).as_nanos() as f64 / calls as f64);
        }
    }
    times
}

fn calls_for_a_sample(run: &mut dyn FnMut(usize), which: usize) -> usize {
    let mut calls = 1;
    while time(run, which, calls) < SAMPLE_TIME {
        calls *= 2;
    }
    calls
}

pub fn median(numbers: impl IntoIterator<Item = f64>) -> f64 {
    let mut sorted: Vec<f64> = numbers.into_iter().collect();
    sorted.sort_by(f64::total_cmp);
    sorted[sorted.len() / 2]
}

pub fn beside(ours: &[f64], theirs: &[f64]) -> Beside {
    Beside { time: median(theirs.iter().copied()), ratio: median(ours.iter().zip(theirs).map(|(o, t)| o / t)) }
}
