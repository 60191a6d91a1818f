//! libkinphlor.a beside OpenSSL's and libgcrypt's AES-SIV: times, the stack of a call, and its instructions. It prints
//! the tables and writes docs/BENCHMARKS.md and its picture. Run by make bench, from the repository's root.

mod callgrind;
mod chart;
mod head;
mod machine;
mod measure;
mod pieces;
mod report;
mod ring;
mod table;
mod timing;

use report::Report;
use timing::{LENS, MODES};

/// With the name of a mode, the child that measures in it.
fn main() {
    match std::env::args().nth(1) {
        None => bench(),
        Some(name) => match MODES.iter().find(|mode| mode.name == name) {
            Some(mode) => measure::child(mode),
            None => shared::check::fail(format!("no mode has the name {name}")),
        },
    }
}

fn bench() {
    let mut report = Report::new();
    report.section("Machine", machine::describe());
    let runs: Vec<timing::Run> = MODES.iter().map(timing::run).collect();
    report.section("Targets", timing::targets(&runs));
    for run in &runs {
        report.section(run.mode.title, run.describe());
    }
    report.section("Stack", machine::stack("target/host/stack"));
    report.section("Instructions", callgrind::describe("target/host/once"));
    report.section("Pieces against the whole call", pieces::describe());
    report.section("A ring against single calls", ring::describe());
    report.section("From a head against the whole call", head::describe());
    let panels: Vec<chart::Panel> = runs.iter().map(timing::Run::panel).collect();
    report.write("docs", &chart::words(&panels), &chart::draw(&LENS, &panels));
}
