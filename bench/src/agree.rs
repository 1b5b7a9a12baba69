//! The library against the independent implementation, on random inputs. Any disagreement ends the run.
use crate::library::{self, Answer, Filter, Rule, State, Term, constant};
use crate::model;
use crate::random::{self, Parts, Random, Shape};

const SMALL: Shape = Shape {
    states: 3,
    rules_per_state: 3,
    low: 97,
    high: 102,
    most_outputs: 3,
    rejecting: 4,
    gap: 4,
};

/// How many inputs were tried, by call and by answer.
#[derive(Default, Debug)]
pub struct Counts {
    pub checked: usize,
    pub unsound: usize,
    pub transduced: usize,
    pub written: usize,
    pub rejected: usize,
    pub refused: usize,
    pub compared: usize,
    pub equivalent: usize,
    pub distinguished: usize,
    pub longest: usize,
    pub not_compared: usize,
    pub given_up: usize,
    pub joined: usize,
    pub composed: usize,
    pub too_large: usize,
    pub not_joined: usize,
}

fn shape(random: &mut Random) -> Shape {
    if random.one_in(3) {
        // Few bytes and many states, for long distinguishing texts.
        let high = SMALL.low + random.below(2) as u32;
        return Shape {
            states: 2 + random.below(9),
            high,
            rejecting: 2,
            gap: 20,
            most_outputs: random.below(3),
            ..SMALL
        };
    }
    Shape {
        states: 1 + random.below(5),
        rules_per_state: 1 + random.below(4),
        high: if random.one_in(5) { 255 } else { SMALL.high },
        low: if random.one_in(5) { 0 } else { SMALL.low },
        most_outputs: random.below(4),
        rejecting: 2 + random.below(4),
        gap: 2 + random.below(5),
    }
}

fn disagree(
    what: &str,
    input: &dyn std::fmt::Debug,
    library: &dyn std::fmt::Debug,
    model: &dyn std::fmt::Debug,
) -> ! {
    eprintln!("DISAGREEMENT at {what}\ninput {input:?}\nlibrary {library:?}\nmodel {model:?}");
    std::process::exit(1)
}

fn check(counts: &mut Counts, f: &Filter) {
    let (x, y) = (library::check(f), model::check(f));
    if x != y {
        disagree("check", f, &x, &y);
    }
    counts.checked += 1;
    counts.unsound += usize::from(x.kind != 0);
}

fn transduce(counts: &mut Counts, random: &mut Random, f: &Filter, text: &[u32]) {
    let room = match random.below(4) {
        0 => random.below(text.len() + 2),
        _ => 3 * text.len() + 4,
    };
    let mut one: Vec<u32> = (0..room).map(|_| random.next() as u32).collect();
    let mut other = one.clone();
    let (x, y) = (
        library::transduce(f, text, &mut one),
        model::transduce(f, text, &mut other),
    );
    if x != y || one != other {
        disagree("transduce", &(f, text), &(x, one), &(y, other));
    }
    counts.transduced += 1;
    match x.kind {
        0 => counts.written += 1,
        1 => counts.rejected += 1,
        _ => counts.refused += 1,
    }
}

fn compare(counts: &mut Counts, random: &mut Random, f: &Filter, g: &Filter) {
    let needed = 2 * f.states.len() * g.states.len() + f.states.len() + g.states.len();
    let room = if random.one_in(10) {
        random.below(3)
    } else {
        needed
    };
    let mut one: Vec<u32> = (0..room).map(|_| random.next() as u32).collect();
    let mut other = one.clone();
    let x = library::compare(f, g, &mut one);
    counts.compared += 1;
    let y = if let Some((number, place, cause)) = model::fault(f) {
        counts.not_compared += 1;
        Answer {
            kind: 2,
            first: number,
            second: place,
            third: cause,
        }
    } else if let Some((number, place, cause)) = model::fault(g) {
        counts.not_compared += 1;
        Answer {
            kind: 4,
            first: number,
            second: place,
            third: cause,
        }
    } else {
        match model::distinguish(f, g, 20_000) {
            Err(()) => {
                counts.given_up += 1;
                return;
            }
            Ok(None) => {
                counts.equivalent += 1;
                Answer {
                    kind: 0,
                    first: 0,
                    second: 0,
                    third: 0,
                }
            }
            Ok(Some(text)) => {
                counts.distinguished += 1;
                counts.longest = counts.longest.max(text.len());
                let fits = text.len() <= other.len();
                if fits {
                    other[..text.len()].copy_from_slice(&text);
                }
                Answer {
                    kind: if fits { 1 } else { 5 },
                    first: text.len(),
                    second: 0,
                    third: 0,
                }
            }
        }
    };
    if x != y || one != other {
        disagree("compare", &(f, g), &(x, one), &(y, other));
    }
}

const STATE: State = State { mark: 7, finals: 7 };
const RULE: Rule = Rule {
    state: 7,
    next: 7,
    outputs: 7,
    low: 7,
    high: 7,
};
const TERM: Term = constant(7);

fn join(counts: &mut Counts, f: &Filter, g: &Filter) -> Option<Filter> {
    let (mut states, mut rules, mut outputs) =
        (vec![STATE; 70], vec![RULE; 1100], vec![TERM; 4200]);
    let x = library::join(f, g, &mut states, &mut rules, &mut outputs);
    counts.joined += 1;
    let refused = |kind, (first, second, third)| Answer {
        kind,
        first,
        second,
        third,
    };
    let (y, table) = if let Some(fault) = model::fault(f) {
        (refused(2, fault), None)
    } else if let Some(fault) = model::fault(g) {
        (refused(4, fault), None)
    } else {
        match model::join(f, g) {
            None => (
                Answer {
                    kind: 1,
                    first: 0,
                    second: 0,
                    third: 0,
                },
                None,
            ),
            Some(j) => (
                refused(0, (j.states.len(), j.rules.len(), j.outputs.len())),
                Some(j),
            ),
        }
    };
    match y.kind {
        0 => counts.composed += 1,
        1 => counts.too_large += 1,
        _ => counts.not_joined += 1,
    }
    let made = table.clone().unwrap_or_default();
    let (p, q, n) = (made.states.len(), made.rules.len(), made.outputs.len());
    let kept = states[p..].iter().all(|s| *s == STATE)
        && rules[q..].iter().all(|r| *r == RULE)
        && outputs[n..].iter().all(|t| *t == TERM);
    let read = Filter {
        states: states[..p].to_vec(),
        rules: rules[..q].to_vec(),
        outputs: outputs[..n].to_vec(),
    };
    if x != y || read != made || !kept {
        disagree("join", &(f, g), &(x, read), &(y, made));
    }
    table
}

/// A second filter for a comparison: often one that does the same.
fn partner(random: &mut Random, parts: &Parts) -> Parts {
    let mut other = match random.below(4) {
        0 => random::late(parts),
        1 => {
            let shape = shape(random);
            random::sound(random, shape)
        }
        2 => random::changed(random, parts),
        _ => parts.clone(),
    };
    if random.one_in(2) {
        other = random::split(random, &other);
    }
    random::renumbered(random, &other)
}

/// Tries so many rounds; each has several calls of each kind.
pub fn run(rounds: usize) -> Counts {
    let mut counts = Counts::default();
    let mut random = Random::new(20);
    for _ in 0..rounds {
        let shape = shape(&mut random);
        let mut parts = random::sound(&mut random, shape);
        if random.one_in(3) {
            parts = random::marked(&parts);
        }
        let f = parts.filter();
        let bad = random::damaged(&mut random, &f);
        check(&mut counts, &f);
        check(&mut counts, &bad);
        for length in [0, 1, 3, 12, 200] {
            let text = random::text(&mut random, shape, length);
            transduce(&mut counts, &mut random, &f, &text);
        }
        let text = random::text(&mut random, shape, 5);
        transduce(&mut counts, &mut random, &bad, &text);
        let other = partner(&mut random, &parts);
        let g = other.filter();
        compare(&mut counts, &mut random, &f, &g);
        compare(&mut counts, &mut random, &g, &f);
        compare(&mut counts, &mut random, &f, &bad);
        compare(&mut counts, &mut random, &bad, &g);
        if let Some(joined) = join(&mut counts, &f, &g) {
            let text = random::text(&mut random, shape, 12);
            transduce(&mut counts, &mut random, &joined, &text);
        }
        join(&mut counts, &g, &bad);
        join(&mut counts, &bad, &g);
    }
    // Cycles that come together only after a long text.
    for (p, q) in [(2, 3), (5, 7), (12, 13), (31, 32), (63, 64), (64, 64)] {
        let (f, g) = (random::cycle(p), random::cycle(q));
        compare(&mut counts, &mut random, &f, &g);
    }
    // The longest text, and one symbol more.
    let parts = random::sound(
        &mut random,
        Shape {
            states: 4,
            gap: 1000,
            ..SMALL
        },
    );
    for length in [model::MOST_SYMBOLS, model::MOST_SYMBOLS + 1] {
        let text: Vec<u32> = (0..length).map(|_| 97 + random.below(6) as u32).collect();
        transduce(&mut counts, &mut random, &parts.filter(), &text);
    }
    // Tables at the limits, and one over.
    for states in [64, 65] {
        for rules_per_state in [16, 17] {
            let shape = Shape {
                states,
                rules_per_state,
                low: 0,
                high: 255,
                most_outputs: 2,
                rejecting: 4,
                gap: 1000,
            };
            let parts = random::sound(&mut random, shape);
            let f = parts.filter();
            let g = random::renumbered(&mut random, &parts).filter();
            check(&mut counts, &f);
            compare(&mut counts, &mut random, &f, &g);
            join(&mut counts, &f, &g);
        }
    }
    counts
}
