//! Records begun from one head against whole calls with the same header list, both by libprobe.a.

use crate::measure::{beside, median, turns, TURNS};
use crate::table::{rounded, Table};
use shared::check;
use shared::library::{Function, KEY_LENS, TAG_LEN};
use shared::probe;
use shared::random::Random;
use shared::whole::{Given, Header};
use Function::{Open, Seal};

/// The bytes of a record, and the lengths of its header strings.
const LEN: usize = 40;
const STRINGS: [u32; 3] = [16; 3];

/// How many records are begun from a head.
const COUNTS: [usize; 2] = [256, 1];

/// The table of a record's time from a head over that of the whole call.
pub fn describe() -> String {
    let mut table = Table::new(&["key", "call", "from a head", "whole call", "ratio", "a head for one record"]);
    let mut random = Random(5297);
    let [most, _] = COUNTS;
    for key_len in KEY_LENS {
        eprintln!("bench: heads, keys of {key_len} bytes");
        let header_len = STRINGS.iter().sum::<u32>() as usize;
        let [key, bytes, plain] = [key_len, header_len, most * LEN].map(|n| random.bytes(n));
        let header = Header { bytes: &bytes, lens: &STRINGS };
        let mut sealed = vec![0; most * (LEN + TAG_LEN)];
        whole(Seal, &Given { key: &key, header, input: &plain }, &mut sealed);
        for (function, input, want) in [(Seal, &plain, &sealed), (Open, &sealed, &plain)] {
            let given = Given { key: &key, header, input };
            let [many, one] = COUNTS.map(|count| row(function, &given, want, count));
            let name = format!("{function:?}").to_lowercase();
            let ratios = [many.ratio, one.ratio].map(|ratio| format!("{ratio:.3}"));
            let times = [many.head, many.whole].map(|time| rounded(time / 1000.0));
            table.rows.push([&[key_len.to_string(), name][..], &times, &ratios].concat());
        }
    }
    table.to_string()
}

/// The nanoseconds of a record each way, and the first over the second.
struct Row {
    head: f64,
    whole: f64,
    ratio: f64,
}

/// The times for the first records of an input; both ways give the wanted bytes.
fn row(function: Function, given: &Given, want: &[u8], count: usize) -> Row {
    let given = Given { input: &given.input[..count * input_len(function)], ..*given };
    let want = &want[..count * function.output_need(input_len(function))];
    let mut output = vec![0; want.len()];
    let mut run = |which: usize| {
        let number = match which {
            0 => probe::records(function, &given, LEN, &mut output).0,
            _ => whole(function, &given, &mut output),
        };
        check::holds(|| format!("{function:?}, {count} records, way {which}: {number}"), number == 0 && output == want);
    };
    for which in [0, 1] {
        run(which);
    }
    let times = turns(TURNS, 2, &mut run);
    let whole = beside(&times[0], &times[1]);
    let each = |time: f64| time / count as f64;
    Row { head: each(median(times[0].iter().copied())), whole: each(whole.time), ratio: whole.ratio }
}

/// The input's bytes of a record.
fn input_len(function: Function) -> usize {
    if function == Seal { LEN } else { LEN + TAG_LEN }
}

/// A whole call for each record of an input: the largest of their numbers.
fn whole(function: Function, given: &Given, output: &mut [u8]) -> u64 {
    let len = input_len(function);
    let mut scratch = [0; LEN];
    let records = given.input.chunks(len).zip(output.chunks_mut(function.output_need(len)));
    let numbers = records.map(|(input, output)| probe::whole(function, &Given { input, ..*given }, output, &mut scratch).0.0);
    numbers.max().unwrap_or(0)
}
