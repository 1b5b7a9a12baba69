//! What would make transducing faster: the library's steps in plain Rust, and the same with one thing changed at a time.
use crate::cleaning;
use crate::library::{Filter, Term};
use crate::measure::{millis, own_time, timed};
use crate::report::Report;
use std::hint::black_box;

const LONGEST: usize = 32;

fn value(term: &Term, symbol: u32) -> Option<u32> {
    if term.tag == 0 {
        return (symbol < 256).then_some(term.constant);
    }
    let sum = i64::from(symbol) + i64::from(term.shift);
    (symbol < 256 && (0..256).contains(&sum)).then_some(sum as u32)
}

fn emit(terms: &[Term], symbol: u32, out: &mut [u32], mut at: usize) -> usize {
    for term in terms {
        if let Some(value) = value(term, symbol) {
            if at < out.len() {
                out[at] = value;
            }
            at += 1;
        }
    }
    at
}

/// Where the outputs of the rule stand, and the next state: by going through all rules.
fn find(f: &Filter, state: u16, symbol: u32) -> Option<(u16, usize, usize)> {
    let mut from = 0;
    for rule in &f.rules {
        let to = from + usize::from(rule.outputs);
        if rule.state == state && rule.low <= symbol && symbol <= rule.high {
            return Some((rule.next, from, to));
        }
        from = to;
    }
    None
}

type Row = [Option<(u16, u16, u16)>; 256];

/// The same for every state and byte.
fn rows(f: &Filter) -> Vec<Row> {
    let entry = |state, symbol| {
        find(f, state, symbol).map(|(next, from, to)| (next, from as u16, to as u16))
    };
    (0..f.states.len())
        .map(|q| std::array::from_fn(|symbol| entry(q as u16, symbol as u32)))
        .collect()
}

fn walk(f: &Filter, text: &[u32], out: &mut [u32]) -> Option<usize> {
    let (mut state, mut at) = (0, 0);
    for symbol in text {
        let (next, from, to) = find(f, state, *symbol)?;
        at = emit(&f.outputs[from..to], *symbol, out, at);
        state = next;
    }
    Some(at)
}

fn walk_rows(f: &Filter, rows: &[Row], text: &[u32], out: &mut [u32]) -> Option<usize> {
    let (mut state, mut at) = (0, 0);
    for symbol in text {
        let (next, from, to) = (*rows[usize::from(state)].get(*symbol as usize)?)?;
        at = emit(
            &f.outputs[usize::from(from)..usize::from(to)],
            *symbol,
            out,
            at,
        );
        state = next;
    }
    Some(at)
}

fn measured(f: &Filter, rows: &[Row], text: &[u32]) -> Option<usize> {
    let (mut state, mut count) = (0, 0);
    for symbol in text {
        let (next, from, to) = (*rows[usize::from(state)].get(*symbol as usize)?)?;
        count += usize::from(to - from);
        state = next;
    }
    (f.states[usize::from(state)].mark == 1).then_some(count)
}

/// What each state writes for each byte, spelled out: the next state and the symbols, of which there are at most 8 here.
type Spelled = [Option<(u16, u8, [u32; 8])>; 256];

fn spelled(f: &Filter) -> Vec<Spelled> {
    let entry = |state, symbol| {
        let (next, from, to) = find(f, state, symbol)?;
        let mut symbols = [0; 8];
        let count = emit(&f.outputs[from..to], symbol, &mut symbols, 0);
        Some((next, count as u8, symbols))
    };
    (0..f.states.len())
        .map(|q| std::array::from_fn(|symbol| entry(q as u16, symbol as u32)))
        .collect()
}

fn walk_spelled(rows: &[Spelled], text: &[u32], out: &mut [u32]) -> Option<usize> {
    let (mut state, mut at) = (0u16, 0);
    for symbol in text {
        let (next, count, symbols) = rows[usize::from(state)].get(*symbol as usize)?.as_ref()?;
        let end = at + usize::from(*count);
        if *count == 1 {
            *out.get_mut(at)? = symbols[0];
        } else {
            out.get_mut(at..end)?
                .copy_from_slice(&symbols[..usize::from(*count)]);
        }
        at = end;
        state = *next;
    }
    Some(at)
}

/// Each way on 16 MB of symbols. All filters here have no final outputs.
pub fn run(report: &mut Report) {
    let f = cleaning::escape();
    let symbols: Vec<u32> = cleaning::note(16 << 20)
        .iter()
        .map(|b| u32::from(*b))
        .collect();
    let mut out = vec![0; LONGEST << 18];
    let mut row = |name: &str, call: &mut dyn FnMut(&[u32], &mut [u32]) -> Option<usize>| {
        let time = timed(own_time, 11, || {
            for chunk in black_box(&symbols).chunks(1 << 20) {
                assert!(call(chunk, &mut out).is_some());
            }
        });
        report.line(&format!("| {name} | {:.1} |", millis(time)));
    };
    row(
        "as the library: measure, then write, rules one by one",
        &mut |text, out| {
            walk(&f, text, &mut [])?;
            walk(&f, text, out)
        },
    );
    row("write at once, rules one by one", &mut |text, out| {
        walk(&f, text, out)
    });
    row(
        "measure by counts, then write, a row of 256 for each state",
        &mut |text, out| {
            let rows = rows(&f);
            measured(&f, &rows, text)?;
            walk_rows(&f, &rows, text, out)
        },
    );
    row(
        "write at once, a row of 256 for each state",
        &mut |text, out| walk_rows(&f, &rows(&f), text, out),
    );
    row(
        "measure by counts, then write, rows with the symbols spelled out",
        &mut |text, out| {
            measured(&f, &rows(&f), text)?;
            walk_spelled(&spelled(&f), text, out)
        },
    );
    row(
        "write at once, rows with the symbols spelled out",
        &mut |text, out| walk_spelled(&spelled(&f), text, out),
    );
}
