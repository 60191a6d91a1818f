//! Times of sealing and opening beside the peers', in one child process for each choice of the machine's instructions.

use crate::chart::Panel;
use crate::table::{grouped, rounded, Table};
use shared::check::fail;
use shared::library::{Function, KEY_LENS};
use std::ffi::CStr;
use std::process::{Command, Stdio};
use Function::{Open, Seal};

/// The lengths of a plaintext.
pub const LENS: [usize; 7] = [0, 40, 256, 1_000, 16_384, 65_536, 1_048_576];

/// Which of the machine's instructions the peers may use. Each mode runs in a process of its own, since OpenSSL reads
/// its setting as it is loaded and libgcrypt takes its own before its first use.
pub struct Mode {
    pub name: &'static str,
    pub title: &'static str,
    /// the title of its panel in the picture
    panel: &'static str,
    note: &'static str,
    /// OPENSSL_ia32cap
    openssl: Option<&'static str>,
    /// what libgcrypt does without
    pub libgcrypt: &'static CStr,
}

pub const MODES: [Mode; 3] = [
    Mode {
        name: "none",
        title: "Times, AES and vector instructions off",
        panel: "AES and vector instructions off",
        note: "All three run code that any x86-64 processor has the instructions for.",
        openssl: Some("0:0"),
        libgcrypt: c"all",
    },
    Mode {
        name: "vectors",
        title: "Times, AES instructions off, vector instructions on",
        panel: "AES off, vector instructions on",
        note: "The peers' ciphers look all bytes of a block up at once, inside vector registers. Kinphlor's does not.",
        openssl: Some("~0x200000000000000:~0x60000000000"),
        libgcrypt: c"intel-aesni,intel-vaes-vpclmul",
    },
    Mode {
        name: "all",
        title: "Times, AES instructions on",
        panel: "AES instructions on",
        note: "The ratios are large because the peers use the processor's AES instructions and Kinphlor uses none.",
        openssl: None,
        libgcrypt: c"",
    },
];

impl Mode {
    /// Whether the peers took the mode's settings, by what they say of their instructions.
    pub fn taken(&self, [openssl, libgcrypt]: &[String; 2]) -> bool {
        let set = self.openssl.is_none_or(|setting| openssl.ends_with(&format!(" env:{setting}")));
        let used: Vec<&str> = libgcrypt.split(':').skip(1).filter(|name| !name.is_empty()).collect();
        set && match &*self.libgcrypt.to_string_lossy() {
            "all" => used.is_empty(),
            names => !names.split(',').any(|name| used.contains(&name)),
        }
    }
}

/// A row: our time in nanoseconds a call, and theirs where a peer takes the length.
pub struct Row {
    pub key_len: usize,
    pub len: usize,
    pub function: Function,
    pub ours: f64,
    pub theirs: [Option<Beside>; 2],
}

/// A peer's time, and ours over it: the median of the turns' ratios, since a turn meets both in the same conditions.
#[derive(Clone, Copy)]
pub struct Beside {
    pub time: f64,
    pub ratio: f64,
}

impl Row {
    /// As the child writes it.
    pub fn to_line(&self) -> String {
        let theirs = self.theirs.map(|b| b.map_or("- -".to_string(), |b| format!("{} {}", b.time, b.ratio)));
        format!("{} {} {:?} {} {}", self.key_len, self.len, self.function, self.ours, theirs.join(" "))
    }

    /// As the parent reads it.
    fn from_line(line: &str) -> Option<Row> {
        let words: Vec<&str> = line.split(' ').collect();
        let [key_len, len, function, ours, ..] = words[..] else { return None };
        let beside = |at: usize| Some(Beside { time: words.get(at)?.parse().ok()?, ratio: words.get(at + 1)?.parse().ok()? });
        Some(Row {
            key_len: key_len.parse().ok()?,
            len: len.parse().ok()?,
            function: [Seal, Open].into_iter().find(|f| format!("{f:?}") == function)?,
            ours: ours.parse().ok()?,
            theirs: [beside(4), beside(6)],
        })
    }
}

/// What a child measured.
pub struct Run {
    pub mode: &'static Mode,
    instructions: [String; 2],
    rows: Vec<Row>,
}

/// This program again, as a child in one mode.
pub fn run(mode: &'static Mode) -> Run {
    eprintln!("bench: {}", mode.title);
    let this = std::env::current_exe().unwrap_or_else(|error| fail(format!("where is this program? {error}")));
    let mut command = Command::new(this);
    command.arg(mode.name).env_remove("OPENSSL_ia32cap").stderr(Stdio::inherit());
    if let Some(setting) = mode.openssl {
        command.env("OPENSSL_ia32cap", setting);
    }
    let output = command.output().unwrap_or_else(|error| fail(format!("no child process: {error}")));
    let text = String::from_utf8_lossy(&output.stdout).to_string();
    let mut lines = text.lines();
    let instructions = [(); 2].map(|_| lines.next().unwrap_or_default().to_string());
    let rows: Vec<Row> = lines.filter_map(Row::from_line).collect();
    if !output.status.success() || rows.len() != 2 * KEY_LENS.len() * LENS.len() {
        fail(format!("the child in mode {} ended after {} rows", mode.name, rows.len()));
    }
    Run { mode, instructions, rows }
}

impl Run {
    /// The table: a line for each key and length, sealing and then opening.
    pub fn describe(&self) -> String {
        let half = ["OpenSSL", "ratio", "libgcrypt", "ratio"];
        let head = [&["key", "bytes", "seal: ours"][..], &half, &["open: ours"], &half].concat();
        let mut table = Table::new(&head);
        for pair in self.rows.chunks(2) {
            let mut line = vec![pair[0].key_len.to_string(), grouped(pair[0].len as u64)];
            for row in pair {
                line.push(rounded(row.ours / 1000.0));
                for beside in row.theirs {
                    let shown = beside.map(|b| [rounded(b.time / 1000.0), rounded(b.ratio)]);
                    line.extend(shown.unwrap_or(["-", "-"].map(String::from)));
                }
            }
            table.rows.push(line);
        }
        let [openssl, libgcrypt] = &self.instructions;
        format!("{}\n\n- OpenSSL says: `{openssl}`\n- libgcrypt says: `{libgcrypt}`\n\n{table}", self.mode.note)
    }

    /// What the picture shows of it: the ratios for sealing under a key of 32 bytes.
    pub fn panel(&self) -> Panel {
        let rows: Vec<&Row> = self.rows.iter().filter(|row| row.key_len == 32 && row.function == Seal).collect();
        let line = |peer: usize| rows.iter().map(|row| row.theirs[peer].map(|b| b.ratio)).collect();
        Panel { title: self.mode.panel, lines: [line(0), line(1)] }
    }

    /// The largest ratio to OpenSSL at a length, over key widths and both calls.
    fn worst(&self, len: usize) -> f64 {
        let ratios = self.rows.iter().filter(|row| row.len == len).filter_map(|row| row.theirs[0]).map(|b| b.ratio);
        ratios.fold(0.0, f64::max)
    }
}

/// The most that a call may take, as a multiple of OpenSSL's time without AES instructions.
const TARGETS: [(usize, f64); 2] = [(1_048_576, 1.6), (40, 0.8)];

/// The targets, in each mode without AES instructions.
pub fn targets(runs: &[Run]) -> String {
    let mut table = Table::new(&["OPENSSL_ia32cap", "bytes", "at most", "largest ratio", "met"]);
    for run in runs {
        let Some(setting) = run.mode.openssl else { continue };
        for (len, most) in TARGETS {
            let worst = run.worst(len);
            let met = if worst <= most { "yes" } else { "no" };
            table.rows.push(vec![format!("`{setting}`"), grouped(len as u64), rounded(most), rounded(worst), met.to_string()]);
        }
    }
    let which = "The targets are for `OPENSSL_ia32cap=0:0`, the first two rows. The others hold them against OpenSSL's vector code.";
    format!("{which}\n\n{table}")
}
