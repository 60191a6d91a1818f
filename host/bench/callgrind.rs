//! Instructions of one call, counted by valgrind's callgrind: a run with the call less a run without it.

use crate::table::{grouped, rounded, Table};
use shared::library::KEY_LENS;
use std::process::Command;

const LENS: [usize; 4] = [0, 40, 1_000, 65_536];

pub fn describe(program: &str) -> String {
    table(program).map_or_else(|why| format!("no callgrind: {why}"), |table| table.to_string())
}

fn table(program: &str) -> Result<Table, String> {
    valgrind(&["--version"])?;
    let mut table = Table::new(&["key", "bytes", "seal", "a byte", "open", "a byte", "ring of four", "four openings", "ratio"]);
    for key_len in KEY_LENS {
        for len in LENS {
            eprintln!("bench: callgrind, key of {key_len} bytes, {len} bytes");
            let counts = (0..=4).map(|calls| count(program, key_len, len, calls)).collect::<Result<Vec<u64>, String>>()?;
            let [seal, open, ring, four] = [1, 2, 3, 4].map(|calls| counts[calls] - counts[calls - 1]);
            let mut row = vec![key_len.to_string(), grouped(len as u64)];
            for instructions in [seal, open] {
                let a_byte = if len == 0 { "-".to_string() } else { rounded(instructions as f64 / len as f64) };
                row.extend([grouped(instructions), a_byte]);
            }
            row.extend([grouped(ring), grouped(four), format!("{:.3}", ring as f64 / four as f64)]);
            table.rows.push(row);
        }
    }
    Ok(table)
}

/// All instructions of a run of host/bench/once.c.
fn count(program: &str, key_len: usize, len: usize, calls: usize) -> Result<u64, String> {
    let [key_len, len, calls] = [key_len, len, calls].map(|n| n.to_string());
    let said = valgrind(&["--tool=callgrind", "--callgrind-out-file=/dev/null", program, &key_len, &len, &calls])?;
    let collected = said.lines().find_map(|line| line.split_once("Collected :"));
    collected.and_then(|(_, number)| number.trim().parse().ok()).ok_or("valgrind gave no count".to_string())
}

/// What valgrind says, which it does on standard error.
fn valgrind(words: &[&str]) -> Result<String, String> {
    let output = Command::new("valgrind").args(words).output();
    let output = output.map_err(|error| format!("valgrind does not run here ({error})"))?;
    match output.status.success() {
        true => Ok(String::from_utf8_lossy(&output.stderr).to_string()),
        false => Err(format!("valgrind {} failed", words.join(" "))),
    }
}
