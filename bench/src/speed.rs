//! Equivalence of byte filters: the library against OpenFst, by the number of states.
use crate::library::{self, Filter};
use crate::measure::{median, micros, per_call};
use crate::openfst;
use crate::random::{self, Random, Shape};
use crate::report::Report;
use std::path::Path;
use std::process::Command;

const SIZES: [usize; 5] = [5, 10, 25, 50, 64];

fn shape(states: usize, most_outputs: usize, rules_per_state: usize) -> Shape {
    Shape {
        states,
        rules_per_state,
        low: 0,
        high: 255,
        most_outputs,
        rejecting: 5,
        gap: 10,
    }
}

/// Two filters of so many states.
fn pair(family: &str, states: usize) -> (Filter, Filter) {
    let mut random = Random::new(states as u64);
    match family {
        "renumbered" => {
            let parts = random::sound(&mut random, shape(states, 1, 12));
            (
                parts.filter(),
                random::renumbered(&mut random, &parts).filter(),
            )
        }
        "late and split" => {
            let parts = random::marked(&random::sound(&mut random, shape(states, 1, 8)));
            let other = random::split(&mut random, &random::late(&parts));
            (
                parts.filter(),
                random::renumbered(&mut random, &other).filter(),
            )
        }
        "one rule changed" => {
            let parts = random::sound(&mut random, shape(states, 1, 12));
            let mut other = random::renumbered(&mut random, &parts);
            let last = other.rules.len() - 1;
            other.rules[last].1 = vec![library::constant(1)];
            (parts.filter(), other.filter())
        }
        _ => {
            let cycle = |count| {
                let mut f = random::cycle(count);
                f.states.iter_mut().for_each(|s| s.mark = 1);
                f
            };
            (cycle(states), cycle(states - 1))
        }
    }
}

/// By OpenFst within one process: the answer, and microseconds without reading the transducers.
fn in_process(program: &Path, dir: &Path) -> Option<(bool, f64)> {
    let out = Command::new(program)
        .arg(dir.join("a.fst"))
        .arg(dir.join("b.fst"))
        .arg("7")
        .output()
        .ok()?;
    let text = String::from_utf8(out.stdout).ok()?;
    let mut fields = text.split_whitespace();
    Some((fields.next()? == "1", fields.next()?.parse().ok()?))
}

pub fn run(report: &mut Report, dir: &Path, program: &Path) {
    report.line(&format!(
        "One tool of OpenFst takes {:.1} ms to start.\n",
        micros(openfst::start_time(dir)) / 1e3
    ));
    report.line("| filters | states | rules | answer | library µs | tools µs | decision alone µs | in one process µs | tools / library | in one process / library |");
    report.line("|---|---|---|---|---|---|---|---|---|---|");
    let mut worst = [[0f64; 2]; 65];
    for family in [
        "renumbered",
        "late and split",
        "one rule changed",
        "cycles of n and n-1",
    ] {
        for states in SIZES {
            let (f, g) = pair(family, states);
            let mut witness = vec![0; 2 * 64 * 64 + 128];
            let answer = library::compare(&f, &g, &mut witness);
            assert!(answer.kind <= 1, "{family} of {states}: {answer:?}");
            let ours = micros(per_call(9, || {
                std::hint::black_box(library::compare(&f, &g, &mut witness));
            }));
            let runs: Vec<(bool, openfst::Times)> =
                (0..5).map(|_| openfst::equivalent(dir, &f, &g)).collect();
            let tools = micros(median(runs.iter().map(|(_, t)| t.all()).collect()));
            let decide = micros(median(runs.iter().map(|(_, t)| t.decide).collect()));
            let inside = in_process(program, dir);
            let equivalent = answer.kind == 0;
            let agree = runs.iter().all(|(same, _)| *same == equivalent)
                && inside.is_none_or(|(same, _)| same == equivalent);
            assert!(agree, "OpenFst disagrees on {family} of {states}");
            let text = if equivalent {
                "equivalent".to_string()
            } else {
                format!("{} bytes", answer.first)
            };
            let (time, ratio) = inside.map_or(("-".into(), "-".into()), |(_, time)| {
                (format!("{time:.0}"), format!("{:.1}", time / ours))
            });
            report.line(&format!(
                "| {family} | {states} | {} | {text} | {ours:.1} | {tools:.0} | {decide:.0} | {time} | {:.0} | {ratio} |",
                f.rules.len(),
                tools / ours
            ));
            worst[states][0] = worst[states][0].max(ours / tools);
            worst[states][1] = worst[states][1].max(inside.map_or(0.0, |(_, time)| ours / time));
            report.point(&format!("library: {family}"), states, ours);
            report.point(&format!("OpenFst tools: {family}"), states, tools);
            if let Some((_, time)) = inside {
                report.point(&format!("OpenFst in one process: {family}"), states, time);
            }
        }
    }
    for (states, most) in [(25, 0.1), (64, 1.0)] {
        report.target(
            &format!("comparing {states} states, against OpenFst's tools, worst pair"),
            worst[states][0],
            most,
        );
        report.target(
            &format!("comparing {states} states, against OpenFst in one process, worst pair"),
            worst[states][1],
            most,
        );
    }
}

/// How often OpenFst and the library give the same answer for small random filters.
pub fn agree(dir: &Path, rounds: u64) -> (usize, usize) {
    let mut random = Random::new(5);
    let mut counts = (0, 0);
    for i in 0..rounds {
        let shape = Shape {
            states: 1 + random.below(5),
            rules_per_state: 3,
            low: 97,
            high: 99,
            most_outputs: 3,
            rejecting: 3,
            gap: 4,
        };
        let parts = random::marked(&random::sound(&mut random, shape));
        let late = random::late(&parts);
        let other = match i % 3 {
            0 => random::split(&mut random, &late),
            1 => random::changed(&mut random, &parts),
            _ => late,
        };
        let (f, g) = (
            parts.filter(),
            random::renumbered(&mut random, &other).filter(),
        );
        let equivalent = library::compare(&f, &g, &mut [0; 200]).kind == 0;
        let (same, _) = openfst::equivalent(dir, &f, &g);
        assert_eq!(equivalent, same, "OpenFst disagrees on {f:?} and {g:?}");
        if same {
            counts.0 += 1;
        } else {
            counts.1 += 1;
        }
    }
    counts
}
