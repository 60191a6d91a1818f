//! Opening under a ring of four keys, the last of which opens, against an opening with each of them: three are refused.

use crate::measure::{beside, median, turns};
use crate::table::{grouped, rounded, target, Table};
use shared::check;
use shared::library::{Args, Function, KEY_LENS, RING_MAX};
use shared::peers::{Libgcrypt, Peer};
use shared::random::Random;
use Function::{Open, OpenRing};

/// The lengths of a plaintext.
const LENS: [usize; 2] = [40, 65_536];

/// The most that the ring's time may be, over that of the four openings.
const MOST: f64 = 1.0;

/// The two differ by a hundredth or less on long records, which takes more turns to tell.
const TURNS: usize = 301;

struct Row {
    key_len: usize,
    len: usize,
    ring: f64,
    four: f64,
    ratio: f64,
}

/// The table of times, and whether the targets are met.
pub fn describe() -> String {
    let rows = rows();
    let mut table = Table::new(&["key", "bytes", "ring of four", "four openings", "ratio"]);
    for row in &rows {
        let times = [row.ring / 1000.0, row.four / 1000.0].map(rounded);
        let ratio = format!("{:.3}", row.ratio);
        table.rows.push([&[row.key_len.to_string(), grouped(row.len as u64)][..], &times, &[ratio]].concat());
    }
    let targets = LENS.map(|len| {
        let largest = rows.iter().filter(|row| row.len == len).map(|row| row.ratio).fold(0.0, f64::max);
        target(&format!("{} bytes", grouped(len as u64)), MOST, largest, 3)
    });
    format!("{table}\nTargets:\n\n{}", targets.join("\n"))
}

fn rows() -> Vec<Row> {
    let mut rows = vec![];
    let mut random = Random(5297);
    for key_len in KEY_LENS {
        for len in LENS {
            eprintln!("bench: rings, keys of {key_len} bytes, {len} bytes");
            let [ring, header, plain] = [RING_MAX * key_len, 28, len].map(|n| random.bytes(n));
            let (ad, nonce) = header.split_at(16);
            let sealed = Libgcrypt::new().seal(&ring[(RING_MAX - 1) * key_len..], &[ad, nonce], &plain);
            let args = Args { key: &ring, header: &header, ad_len: 16, nonce_len: 12, input: &sealed };
            rows.push(row(key_len, &args, &plain));
        }
    }
    rows
}

/// The times for one ring; both ways give the plaintext.
fn row(key_len: usize, args: &Args, plain: &[u8]) -> Row {
    let len = plain.len();
    let (mut output, mut scratch) = (vec![0; len], vec![0; Open.scratch_need(args.input.len())]);
    let mut run = |which: usize| {
        let answers: Vec<_> = match which {
            0 => vec![OpenRing(key_len).call(args, &mut output, &mut scratch)],
            _ => args.key.chunks(key_len).map(|key| Open.call(&Args { key, ..*args }, &mut output, &mut scratch)).collect(),
        };
        let wanted: &[_] = match which {
            0 => &[(0, 3, len as u64)],
            _ => &[(8, 0, 0), (8, 0, 0), (8, 0, 0), (0, 0, len as u64)],
        };
        check::holds(|| format!("way {which}: {answers:?}"), answers == wanted && output == plain);
    };
    for which in [0, 1] {
        run(which);
    }
    let times = turns(TURNS, 2, &mut run);
    let four = beside(&times[0], &times[1]);
    Row { key_len, len, ring: median(times[0].iter().copied()), four: four.time, ratio: four.ratio }
}
