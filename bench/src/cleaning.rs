//! Cleaning a note: `&amp;` for every ampersand, by the library, by hand and by other programs.
use crate::library::{self, Filter, Rule, State, constant, shift};
use crate::measure::{millis, own_time, time_of_programs, timed};
use crate::random::Random;
use crate::report::Report;
use std::fs::File;
use std::io::{Read, Write};
use std::path::Path;
use std::process::{Command, Stdio};

const NOTE: usize = 16 << 20;

/// The most symbols of one text. The filter has one state and no final output, so a note may be cut anywhere.
const CHUNK: usize = 1 << 20;

/// The filter that escapes ampersands, as the library has it built in.
pub fn escape() -> Filter {
    let rule = |outputs, low, high| Rule {
        state: 0,
        next: 0,
        outputs,
        low,
        high,
    };
    let mut outputs = vec![shift(0)];
    outputs.extend(b"&amp;".iter().map(|b| constant(u32::from(*b))));
    outputs.push(shift(0));
    Filter {
        states: vec![State { mark: 1, finals: 0 }],
        rules: vec![rule(1, 0, 37), rule(5, 38, 38), rule(1, 39, 255)],
        outputs,
    }
}

/// Lines of words, with an ampersand about every hundred bytes and no other character that HTML escapes.
pub fn note(length: usize) -> Vec<u8> {
    let words = [
        "shawl", "cotton", "vessel", "painted", "Nasca", "before", "1532", "fragment", "gift",
        "of", "the", "bowl,", "red", "ochre", "&", "tapestry", "band;", "camelid", "fibre",
        "A12B*7Q",
    ];
    let mut random = Random::new(7);
    let mut note = Vec::with_capacity(length + 16);
    let mut line = 0;
    while note.len() < length {
        let word = words[random.below(words.len())];
        note.extend_from_slice(word.as_bytes());
        line += word.len() + 1;
        note.push(if line > 76 { b'\n' } else { b' ' });
        line = if line > 76 { 0 } else { line };
    }
    note.truncate(length);
    note
}

/// Memory for a chunk and what is written for it.
pub struct Room {
    symbols: Vec<u32>,
    written: Vec<u32>,
}

impl Room {
    pub fn new() -> Room {
        Room {
            symbols: vec![0; CHUNK],
            written: vec![0; 5 * CHUNK],
        }
    }
}

/// By the library: bytes become symbols, and symbols bytes again.
pub fn by_library(filter: &Filter, note: &[u8], room: &mut Room, out: &mut Vec<u8>) {
    out.clear();
    for chunk in note.chunks(CHUNK) {
        let symbols = &mut room.symbols[..chunk.len()];
        symbols
            .iter_mut()
            .zip(chunk)
            .for_each(|(s, b)| *s = u32::from(*b));
        let answer = library::transduce(filter, symbols, &mut room.written);
        assert_eq!(answer.kind, 0);
        out.extend(room.written[..answer.second].iter().map(|s| *s as u8));
    }
}

/// By hand, byte by byte.
pub fn by_hand(note: &[u8], out: &mut Vec<u8>) {
    out.clear();
    for byte in note {
        if *byte == b'&' {
            out.extend_from_slice(b"&amp;");
        } else {
            out.push(*byte);
        }
    }
}

/// By hand, as the library's call is: symbols of 32 bits, measured first, then written.
fn by_hand_on_symbols(text: &[u32], out: &mut [u32]) -> Option<usize> {
    let mut count = 0;
    for symbol in text {
        if *symbol > 255 {
            return None;
        }
        count += if *symbol == 38 { 5 } else { 1 };
    }
    if count > out.len() {
        return None;
    }
    let mut at = 0;
    for symbol in text {
        if *symbol == 38 {
            out[at..at + 5].copy_from_slice(&[38, 97, 109, 112, 59]);
            at += 5;
        } else {
            out[at] = *symbol;
            at += 1;
        }
    }
    Some(count)
}

/// A process of its own: standard input to standard output.
pub fn program(how: &str) {
    let mut note = Vec::new();
    std::io::stdin()
        .lock()
        .read_to_end(&mut note)
        .expect("the input can be read");
    let mut out = Vec::with_capacity(note.len() + note.len() / 4);
    match how {
        "library" => by_library(&escape(), &note, &mut Room::new(), &mut out),
        _ => by_hand(&note, &mut out),
    }
    std::io::stdout()
        .lock()
        .write_all(&out)
        .expect("the output can be written");
}

fn command(words: &[&str], file: &Path) -> Command {
    let mut command = Command::new(words[0]);
    command
        .args(&words[1..])
        .stdin(File::open(file).expect("the note is there"));
    command
}

pub fn run(report: &mut Report, dir: &Path) {
    let note = note(NOTE);
    let file = dir.join("note");
    std::fs::write(&file, &note).expect("the folder can be written");
    let itself = std::env::current_exe().expect("the program has a path");
    let itself = itself.to_str().expect("the path is text");
    let python = "import sys, html\ndata = sys.stdin.buffer.read().decode('ascii')\nsys.stdout.buffer.write(html.escape(data, quote=False).encode('ascii'))";
    let programs: [(&str, Vec<&str>); 7] = [
        ("library", vec![itself, "clean", "library"]),
        ("hand-written Rust", vec![itself, "clean", "hand"]),
        ("sed", vec!["sed", "s/&/\\&amp;/g"]),
        (
            "sed, LC_ALL=C",
            vec!["env", "LC_ALL=C", "sed", "s/&/\\&amp;/g"],
        ),
        ("perl -pe", vec!["perl", "-pe", "s/&/&amp;/g"]),
        (
            "perl -0777 -pe",
            vec!["perl", "-0777", "-pe", "s/&/&amp;/g"],
        ),
        ("Python html.escape", vec!["python3", "-c", python]),
    ];
    let mut expected = Vec::new();
    by_hand(&note, &mut expected);
    report.line("| a process of its own | ms | against the library |");
    report.line("|---|---|---|");
    let mut times = Vec::new();
    for (name, words) in &programs {
        let out = command(words, &file).output().expect("the program runs");
        assert!(out.stdout == expected, "{name} writes something else");
        let time = timed(time_of_programs, 9, || {
            let status = command(words, &file).stdout(Stdio::null()).status();
            assert!(status.expect("the program runs").success());
        });
        times.push(millis(time));
        report.line(&format!(
            "| {name} | {:.1} | {:.2} |",
            millis(time),
            millis(time) / times[0]
        ));
    }
    report.target(
        "cleaning takes at most as long as sed",
        times[0] / times[2].min(times[3]),
        1.0,
    );
    report.target(
        "cleaning takes at most 4 times as long as hand-written Rust, each a process",
        times[0] / times[1],
        4.0,
    );
    let filter = escape();
    let mut room = Room::new();
    let mut out = Vec::with_capacity(2 * NOTE);
    let whole = timed(own_time, 11, || {
        by_library(&filter, &note, &mut room, &mut out)
    });
    let hand = timed(own_time, 11, || {
        by_hand(std::hint::black_box(&note), &mut out)
    });
    let symbols: Vec<u32> = note.iter().map(|b| u32::from(*b)).collect();
    let calls = timed(own_time, 11, || {
        for chunk in symbols.chunks(CHUNK) {
            assert_eq!(
                library::transduce(&filter, chunk, &mut room.written).kind,
                0
            );
        }
    });
    let hand_calls = timed(own_time, 11, || {
        for chunk in symbols.chunks(CHUNK) {
            assert!(by_hand_on_symbols(std::hint::black_box(chunk), &mut room.written).is_some());
        }
    });
    report.target(
        "the same in memory, from bytes to bytes",
        whole.as_secs_f64() / hand.as_secs_f64(),
        4.0,
    );
    report.target(
        "the same in memory, the call alone on symbols",
        calls.as_secs_f64() / hand_calls.as_secs_f64(),
        4.0,
    );
    report.line("\n| in memory | ms | against hand-written |");
    report.line("|---|---|---|");
    report.line(&format!(
        "| library, from bytes to bytes | {:.1} | {:.2} |",
        millis(whole),
        whole.as_secs_f64() / hand.as_secs_f64()
    ));
    report.line(&format!(
        "| hand-written, from bytes to bytes | {:.1} | 1 |",
        millis(hand)
    ));
    report.line(&format!(
        "| library, the call alone, on symbols | {:.1} | {:.2} |",
        millis(calls),
        calls.as_secs_f64() / hand_calls.as_secs_f64()
    ));
    report.line(&format!(
        "| hand-written, on symbols, measured first | {:.1} | 1 |",
        millis(hand_calls)
    ));
}
