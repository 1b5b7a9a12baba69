//! How time grows with states, rules and the length of a text.
use crate::cleaning;
use crate::library::{self, Filter, Rule, State, shift};
use crate::measure::{micros, per_call};
use crate::random::{self, Random, Shape};
use crate::report::Report;
use std::hint::black_box;

/// One state that copies bytes by so many rules.
fn copier(rules: u32) -> Filter {
    let rule = |i: u32| Rule {
        state: 0,
        next: 0,
        outputs: 1,
        low: i * 256 / rules,
        high: (i + 1) * 256 / rules - 1,
    };
    Filter {
        states: vec![State { mark: 1, finals: 0 }],
        rules: (0..rules).map(rule).collect(),
        outputs: vec![shift(0); rules as usize],
    }
}

fn shape(states: usize, rules_per_state: usize) -> Shape {
    Shape {
        states,
        rules_per_state,
        low: 0,
        high: 255,
        most_outputs: 1,
        rejecting: 5,
        gap: 1000,
    }
}

fn compared(states: usize, rules_per_state: usize) -> (usize, f64) {
    let mut random = Random::new(3);
    let parts = random::sound(&mut random, shape(states, rules_per_state));
    let (f, g) = (
        parts.filter(),
        random::renumbered(&mut random, &parts).filter(),
    );
    let time = per_call(9, || assert_eq!(library::compare(&f, &g, &mut []).kind, 0));
    (f.rules.len(), micros(time))
}

pub fn run(report: &mut Report) {
    let escape = cleaning::escape();
    let note: Vec<u32> = cleaning::note(1 << 20)
        .iter()
        .map(|b| u32::from(*b))
        .collect();
    let mut out = vec![0; 5 << 20];
    report.line("| symbols of the text | transduce µs | ns for a symbol |");
    report.line("|---|---|---|");
    for bits in [0, 4, 8, 10, 12, 14, 16, 18, 20] {
        let text = &note[..1 << bits];
        let time = micros(per_call(9, || {
            black_box(library::transduce(&escape, text, &mut out));
        }));
        report.line(&format!(
            "| {} | {time:.2} | {:.2} |",
            text.len(),
            time * 1e3 / text.len() as f64
        ));
        report.point("transduce by length", text.len(), time);
    }
    let mut random = Random::new(9);
    let bytes: Vec<u32> = (0..65536).map(|_| random.below(256) as u32).collect();
    report
        .line("\n| rules of the one state | transduce 65,536 random bytes µs | ns for a symbol |");
    report.line("|---|---|---|");
    for rules in [1, 2, 4, 8, 16, 32, 64, 128, 256] {
        let filter = copier(rules);
        let time = micros(per_call(9, || {
            assert_eq!(library::transduce(&filter, &bytes, &mut out).kind, 0)
        }));
        report.line(&format!(
            "| {rules} | {time:.1} | {:.2} |",
            time * 1e3 / bytes.len() as f64
        ));
        report.point("transduce by rules", rules as usize, time);
    }
    report.line("\n| states, 8 rules each | rules | compare with itself renumbered µs |");
    report.line("|---|---|---|");
    for states in [1, 2, 4, 8, 16, 32, 64] {
        let (rules, time) = compared(states, 8);
        report.line(&format!("| {states} | {rules} | {time:.1} |"));
        report.point("compare by states", states, time);
    }
    report.line(
        "\n| rules for a state, at most | rules of 32 states | compare with itself renumbered µs |",
    );
    report.line("|---|---|---|");
    for most in [1, 2, 4, 8, 16, 32] {
        let (rules, time) = compared(32, most);
        report.line(&format!("| {most} | {rules} | {time:.1} |"));
        report.point("compare by rules", rules, time);
    }
    report.line("\n| states | rules | check µs |");
    report.line("|---|---|---|");
    for states in [1, 4, 16, 64] {
        let f = random::sound(&mut random, shape(states, 16)).filter();
        let time = micros(per_call(9, || assert_eq!(library::check(&f).kind, 0)));
        report.line(&format!("| {states} | {} | {time:.1} |", f.rules.len()));
        report.point("check by rules", f.rules.len(), time);
    }
}
