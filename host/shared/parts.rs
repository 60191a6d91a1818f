//! The frame of a test program: its seed, and its parts in turn, each counted and timed.

use crate::check;
use std::time::Instant;

/// Any seed will do; HOST_SEED sets another.
const SEED: u64 = 5297;

/// The program's seed, which it prints.
pub fn seed(program: &str) -> u64 {
    let seed = match std::env::var("HOST_SEED") {
        Ok(text) => text.parse().unwrap_or_else(|_| check::fail(format!("HOST_SEED is no number: {text}"))),
        Err(_) => SEED,
    };
    println!("{program}: seed {seed}");
    seed
}

pub fn run<T>(program: &str, cases: &mut T, parts: &[(&str, fn(&mut T))]) {
    for (what, part) in parts {
        println!("{program}: {what}");
        let (start, before) = (Instant::now(), check::passed());
        part(cases);
        println!("{program}:     {} checks, {:.1} s", check::passed() - before, start.elapsed().as_secs_f64());
    }
    println!("{program}: {} checks passed", check::passed());
}
