//! Sealing and opening in pieces against the whole call, both by libprobe.a.

use crate::measure::{beside, turns, TURNS};
use crate::table::{grouped, rounded, target, Table};
use shared::check;
use shared::library::{Function, KEY_LENS};
use shared::probe;
use shared::random::Random;
use shared::whole::{Given, Header};
use Function::{Open, Seal};

/// The lengths of a plaintext; and of a piece, the first of which cuts 40 bytes in three.
const LENS: [usize; 4] = [40, 1_000, 65_536, 1_048_576];
const PIECES: [usize; 3] = [16, 64, 4096];

/// A target: bytes, the column of the piece's length, and the most that the ratio may be.
const TARGETS: [(usize, usize, f64); 2] = [(40, 0, 2.0), (1_048_576, 2, 1.25)];

struct Row {
    key_len: usize,
    len: usize,
    function: Function,
    ratios: [f64; 3],
}

/// The table of the time in pieces over that of the whole call, and whether the targets are met.
pub fn describe() -> String {
    let rows = rows();
    let pieces = PIECES.map(|len| format!("pieces of {}", grouped(len as u64)));
    let head = ["key", "bytes", "call"].map(String::from);
    let mut table = Table { head: [&head[..], &pieces].concat(), rows: vec![] };
    for row in &rows {
        let names = [row.key_len.to_string(), grouped(row.len as u64), format!("{:?}", row.function).to_lowercase()];
        table.rows.push([&names[..], &row.ratios.map(rounded)].concat());
    }
    let targets = TARGETS.map(|(len, piece, most)| {
        let largest = rows.iter().filter(|row| row.len == len).map(|row| row.ratios[piece]).fold(0.0, f64::max);
        let (len, piece) = (grouped(len as u64), grouped(PIECES[piece] as u64));
        target(&format!("{len} bytes in pieces of {piece}"), most, largest, 2)
    });
    format!("{table}\nTargets:\n\n{}", targets.join("\n"))
}

fn rows() -> Vec<Row> {
    let mut rows = vec![];
    let mut random = Random(5297);
    for key_len in KEY_LENS {
        for len in LENS {
            eprintln!("bench: pieces, key of {key_len} bytes, {len} bytes");
            let [key, bytes, plain] = [key_len, 28, len].map(|n| random.bytes(n));
            let header = Header { bytes: &bytes, lens: &[16, 12] };
            let mut sealed = vec![0; Seal.output_need(len)];
            let mut scratch = vec![0; Seal.scratch_need(len)];
            probe::whole(Seal, &Given { key: &key, header, input: &plain }, &mut sealed, &mut scratch);
            for (function, input, want) in [(Seal, &plain, &sealed), (Open, &sealed, &plain)] {
                let ratios = ratios(function, &Given { key: &key, header, input }, want);
                rows.push(Row { key_len, len, function, ratios });
            }
        }
    }
    rows
}

/// The ratios for one call; all ways of it give the wanted bytes.
fn ratios(function: Function, given: &Given, want: &[u8]) -> [f64; 3] {
    let mut output = vec![0; want.len()];
    let mut scratch = vec![0; function.scratch_need(given.input.len())];
    let mut run = |which: usize| {
        let number = match which {
            0 => probe::whole(function, given, &mut output, &mut scratch).0.0,
            _ => probe::by_pieces(function, given, PIECES[which - 1], &mut output).0,
        };
        check::holds(|| format!("{function:?}, way {which}: {number}"), number == 0 && output == want);
    };
    for which in 0..=PIECES.len() {
        run(which);
    }
    let times = turns(TURNS, 1 + PIECES.len(), &mut run);
    [1, 2, 3].map(|which| beside(&times[which], &times[0]).ratio)
}
