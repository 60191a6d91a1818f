//! Where the figures come from, and the stack of a call.

use crate::measure::TURNS;
use shared::check::fail;
use shared::peers::{Libcrypto, Libgcrypt, Peer};
use std::fs::read_to_string;
use std::process::Command;

/// What a command prints, or "unknown".
fn said(command: &str, words: &[&str]) -> String {
    let output = Command::new(command).args(words).output();
    let text = output.map(|o| String::from_utf8_lossy(&o.stdout).trim().to_string()).unwrap_or_default();
    if text.is_empty() { "unknown".to_string() } else { text }
}

fn file(path: &str) -> String {
    read_to_string(path).map_or("unknown".to_string(), |text| text.trim().to_string())
}

/// The processors as the kernel names them, and how many there are.
fn processors() -> String {
    let text = file("/proc/cpuinfo");
    let all = |name: &str| -> Vec<&str> {
        let values = text.lines().filter_map(|line| line.split_once(':')).filter(|(n, _)| n.trim() == name);
        values.map(|(_, value)| value.trim()).collect()
    };
    let first = |name: &str| all(name).first().copied().unwrap_or("unknown");
    let count = all("processor").len();
    format!("{count} x {}, family {}, model {}", first("model name"), first("cpu family"), first("model"))
}

pub fn describe() -> String {
    let loads = file("/proc/loadavg");
    let lines = [
        ("date", said("date", &["-u", "+%Y-%m-%d"])),
        ("processors", processors()),
        ("kernel", format!("Linux {}", file("/proc/sys/kernel/osrelease"))),
        ("load before the run", loads.split(' ').next().unwrap_or_default().to_string()),
        ("archive", format!("compiled by {}", said("rt", &["version"]))),
        ("turns in a row", TURNS.to_string()),
        ("peers", format!("{}; {}", Libcrypto::new().version(), Libgcrypt::new().version())),
    ];
    lines.map(|(what, text)| format!("- {what}: {text}")).join("\n")
}

/// The line of the program that measures the stack.
pub fn stack(program: &str) -> String {
    match said(program, &[]).strip_prefix("stack: ") {
        Some(text) => format!("Measured on a painted stack: {text}."),
        None => fail(format!("{program} gave no figure")),
    }
}
