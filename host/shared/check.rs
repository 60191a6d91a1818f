//! Counted checks. The first that fails ends the program with what was expected and what came.

use std::sync::atomic::{AtomicU64, Ordering};

static PASSED: AtomicU64 = AtomicU64::new(0);

pub fn passed() -> u64 {
    PASSED.load(Ordering::Relaxed)
}

pub fn fail(message: String) -> ! {
    eprintln!("host: FAILED: {message}");
    std::process::exit(1)
}

pub fn holds(what: impl Fn() -> String, condition: bool) {
    if !condition {
        fail(what());
    }
    PASSED.fetch_add(1, Ordering::Relaxed);
}

/// Byte strings are equal; if not, the message shows them from their first difference.
pub fn bytes(what: impl Fn() -> String, expected: &[u8], got: &[u8]) {
    holds(
        || {
            let at = expected.iter().zip(got).take_while(|(e, g)| e == g).count();
            let show = |s: &[u8]| hex(&s[at..s.len().min(at + 16)]);
            format!(
                "{}: expected {} bytes, got {}; from byte {at} on: expected {}, got {}",
                what(),
                expected.len(),
                got.len(),
                show(expected),
                show(got)
            )
        },
        expected == got,
    );
}

pub fn hex(bytes: &[u8]) -> String {
    bytes.iter().map(|b| format!("{b:02x}")).collect()
}
