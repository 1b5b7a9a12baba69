//! Equivalence of filters by OpenFst's command-line tools.
//!
//! A filter becomes a transducer with an arc for every byte (label byte + 1), a first arc with a begin symbol, and its
//! final outputs on arcs behind an end symbol. An arc writes one symbol at most: where a rule of either filter writes more,
//! every byte is followed by so many padding symbols that there is an arc for each. `fstpush` moves outputs towards the
//! beginning as far as they go, which is a normal form; then labels are encoded in pairs, and the two acceptors over these
//! pairs are compared. Without pushing, filters that write the same at different times would not be equivalent.
use crate::library::Filter;
use crate::measure::time_of_programs;
use crate::model::Machine;
use std::collections::HashMap;
use std::fmt::Write;
use std::fs;
use std::path::{Path, PathBuf};
use std::process::{Command, Stdio};
use std::time::Duration;

const BEGIN: u32 = 257;
const END: u32 = 258;
const PAD: u32 = 259;

/// The lines of a transducer in OpenFst's text format.
struct Lines {
    text: String,
    fresh: usize,
    /// The state that has these symbols still to write before it goes to a state.
    tails: HashMap<(usize, Vec<u32>), usize>,
}

impl Lines {
    fn line(&mut self, from: usize, to: usize, read: u32, written: &[u32]) {
        let write = written.first().map_or(0, |symbol| symbol + 1);
        writeln!(self.text, "{from} {to} {read} {write}").expect("a string takes it");
    }

    /// Arcs that read a label and then padding, and write so many symbols, one on each.
    fn arcs(&mut self, from: usize, to: usize, label: u32, written: &[u32], arcs: usize) {
        if arcs <= 1 {
            self.line(from, to, label, written);
            return;
        }
        let rest = written.get(1..).unwrap_or_default();
        let mut key = rest.to_vec();
        key.push(u32::MAX - arcs as u32);
        let tail = (to, key);
        if let Some(state) = self.tails.get(&tail) {
            let state = *state;
            self.line(from, state, label, written);
            return;
        }
        let state = self.fresh;
        self.fresh += 1;
        self.tails.insert(tail, state);
        self.line(from, state, label, written);
        self.arcs(state, to, PAD, rest, arcs - 1);
    }
}

/// The longest output of a rule, at least 1.
fn widest(f: &Filter) -> usize {
    f.rules
        .iter()
        .map(|r| usize::from(r.outputs))
        .max()
        .unwrap_or(0)
        .max(1)
}

/// The longest final output, at least 1.
fn longest(f: &Filter) -> usize {
    f.states
        .iter()
        .map(|s| usize::from(s.finals))
        .max()
        .unwrap_or(0)
        .max(1)
}

/// A sound filter in OpenFst's text format, with so many arcs for each byte and for the end.
pub fn spelled(f: &Filter, arcs: usize, endings: usize) -> String {
    let machine = Machine::new(f);
    let last = f.states.len() + 1;
    let mut lines = Lines {
        text: format!("0 1 {BEGIN} {BEGIN}\n"),
        fresh: last + 1,
        tails: HashMap::new(),
    };
    for (q, row) in machine.moves.iter().enumerate() {
        for (byte, found) in row.iter().enumerate() {
            if let Some((written, next)) = found {
                lines.arcs(q + 1, next + 1, byte as u32 + 1, written, arcs);
            }
        }
        if let Some(symbols) = &machine.finals[q] {
            lines.arcs(q + 1, last, END, symbols, endings);
        }
    }
    writeln!(lines.text, "{last}").expect("a string takes it");
    lines.text
}

fn run(tool: &str, options: &[&str], files: &[&Path]) {
    let status = Command::new(tool).args(options).args(files).status();
    let status =
        status.unwrap_or_else(|e| panic!("{tool}: {e}; OpenFst's tools are Debian's libfst-tools"));
    assert!(status.success(), "{tool} failed");
}

/// How long each part took.
#[derive(Clone, Copy, Default)]
pub struct Times {
    pub compile: Duration,
    pub prepare: Duration,
    pub decide: Duration,
}

impl Times {
    pub fn all(&self) -> Duration {
        self.compile + self.prepare + self.decide
    }
}

/// Whether two sound filters are equivalent.
pub fn equivalent(dir: &Path, f: &Filter, g: &Filter) -> (bool, Times) {
    let arcs = widest(f).max(widest(g));
    let endings = longest(f).max(longest(g));
    let path = |name: &str| -> PathBuf { dir.join(name) };
    for (name, filter) in [("a", f), ("b", g)] {
        fs::write(path(&format!("{name}.txt")), spelled(filter, arcs, endings))
            .expect("the folder can be written");
    }
    let mut times = Times::default();
    let start = time_of_programs();
    for name in ["a", "b"] {
        run(
            "fstcompile",
            &[],
            &[&path(&format!("{name}.txt")), &path(&format!("{name}.fst"))],
        );
    }
    times.compile = time_of_programs() - start;
    let start = time_of_programs();
    let codes = path("codes");
    for name in ["a", "b"] {
        let (raw, trim, pushed) = (
            path(&format!("{name}.fst")),
            path(&format!("{name}.trim")),
            path(&format!("{name}.push")),
        );
        let (tight, coded) = (
            path(&format!("{name}.tight")),
            path(&format!("{name}.code")),
        );
        run("fstconnect", &[], &[&raw, &trim]);
        run("fstpush", &["--push_labels"], &[&trim, &pushed]);
        run("fstrmepsilon", &[], &[&pushed, &tight]);
        let options: &[&str] = if name == "a" {
            &["--encode_labels"]
        } else {
            &["--encode_labels", "--encode_reuse"]
        };
        run("fstencode", options, &[&tight, &codes, &coded]);
    }
    times.prepare = time_of_programs() - start;
    let start = time_of_programs();
    let status = Command::new("fstequivalent")
        .args([path("a.code"), path("b.code")])
        .stdout(Stdio::null())
        .status()
        .expect("fstequivalent runs");
    times.decide = time_of_programs() - start;
    (status.code() == Some(0), times)
}

/// How long it takes to start one tool on a transducer of a single state.
pub fn start_time(dir: &Path) -> Duration {
    let (text, fst) = (dir.join("one.txt"), dir.join("one.fst"));
    fs::write(&text, "0\n").expect("the folder can be written");
    crate::measure::timed(time_of_programs, 15, || {
        run("fstcompile", &[], &[&text, &fst])
    })
}
