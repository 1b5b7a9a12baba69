//! Random filters, sound and damaged, and filters that do the same in another shape.
use crate::library::{Filter, Rule, State, Term, constant, shift};

/// A small generator of random numbers (splitmix64), so that every run has the same inputs.
pub struct Random(u64);

impl Random {
    pub fn new(seed: u64) -> Random {
        Random(seed)
    }

    pub fn next(&mut self) -> u64 {
        self.0 = self.0.wrapping_add(0x9e37_79b9_7f4a_7c15);
        let mut z = self.0;
        z = (z ^ (z >> 30)).wrapping_mul(0xbf58_476d_1ce4_e5b9);
        z = (z ^ (z >> 27)).wrapping_mul(0x94d0_49bb_1331_11eb);
        z ^ (z >> 31)
    }

    pub fn below(&mut self, n: usize) -> usize {
        (self.next() % n as u64) as usize
    }

    pub fn one_in(&mut self, n: usize) -> bool {
        self.below(n) == 0
    }

    pub fn shuffle<T>(&mut self, list: &mut [T]) {
        for i in (1..list.len()).rev() {
            list.swap(i, self.below(i + 1));
        }
    }
}

/// What a filter is made of.
#[derive(Clone, Copy)]
pub struct Shape {
    pub states: usize,
    pub rules_per_state: usize,
    /// The bytes that rules hold lie between these.
    pub low: u32,
    pub high: u32,
    pub most_outputs: usize,
    /// One state in so many rejects, and one range in so many has no rule.
    pub rejecting: usize,
    pub gap: usize,
}

fn term(random: &mut Random, low: u32, high: u32, shape: &Shape) -> Term {
    if random.one_in(3) {
        constant(shape.low + random.below((shape.high - shape.low + 1) as usize) as u32)
    } else if random.one_in(3) {
        let room = (shape.high - high + low - shape.low) as usize;
        shift(shape.low as i32 - low as i32 + random.below(room + 1) as i32)
    } else {
        shift(0)
    }
}

/// A filter by parts: each state with its final output, each rule with its terms.
#[derive(Clone)]
pub struct Parts {
    pub states: Vec<(u8, Vec<Term>)>,
    pub rules: Vec<(Rule, Vec<Term>)>,
}

impl Parts {
    pub fn filter(&self) -> Filter {
        let finals = self
            .states
            .iter()
            .flat_map(|(_, terms)| terms.iter().copied());
        let outputs = self
            .rules
            .iter()
            .flat_map(|(_, terms)| terms.iter().copied());
        Filter {
            states: self
                .states
                .iter()
                .map(|(mark, terms)| State {
                    mark: *mark,
                    finals: terms.len() as u16,
                })
                .collect(),
            rules: self
                .rules
                .iter()
                .map(|(rule, terms)| Rule {
                    outputs: terms.len() as u16,
                    ..*rule
                })
                .collect(),
            outputs: finals.chain(outputs).collect(),
        }
    }
}

/// A sound filter. Each state leads to the next one, so that all are reached.
pub fn sound(random: &mut Random, shape: Shape) -> Parts {
    let mut parts = Parts {
        states: Vec::new(),
        rules: Vec::new(),
    };
    for state in 0..shape.states {
        let accepts = !random.one_in(shape.rejecting);
        let count = if accepts && random.one_in(3) {
            1 + random.below(2)
        } else {
            0
        };
        let finals = (0..count).map(|_| {
            constant(shape.low + random.below((shape.high - shape.low + 1) as usize) as u32)
        });
        parts.states.push((accepts.into(), finals.collect()));
        let width = (shape.high - shape.low + 1) as usize;
        let mut cuts: Vec<u32> = (1..shape.rules_per_state.min(width))
            .map(|_| shape.low + random.below(width) as u32)
            .collect();
        cuts.push(shape.low);
        cuts.sort_unstable();
        cuts.dedup();
        for (i, low) in cuts.iter().enumerate() {
            let high = cuts.get(i + 1).map_or(shape.high, |next| next - 1);
            let next = if i == 0 {
                (state + 1) % shape.states
            } else {
                random.below(shape.states)
            };
            if i > 0 && random.one_in(shape.gap) {
                continue;
            }
            let count = match random.below(4) {
                0 => random.below(shape.most_outputs + 1),
                _ => 1.min(shape.most_outputs),
            };
            let terms = (0..count)
                .map(|_| term(random, *low, high, &shape))
                .collect();
            let rule = Rule {
                state: state as u16,
                next: next as u16,
                outputs: 0,
                low: *low,
                high,
            };
            parts.rules.push((rule, terms));
        }
    }
    parts
}

/// The same treatment in another shape: states renumbered, rules in another order.
pub fn renumbered(random: &mut Random, parts: &Parts) -> Parts {
    let mut numbers: Vec<usize> = (1..parts.states.len()).collect();
    random.shuffle(&mut numbers);
    numbers.insert(0, 0);
    let mut other = parts.clone();
    for (old, new) in numbers.iter().enumerate() {
        other.states[*new] = parts.states[old].clone();
    }
    for (rule, _) in &mut other.rules {
        rule.state = numbers[usize::from(rule.state)] as u16;
        rule.next = numbers[usize::from(rule.next)] as u16;
    }
    random.shuffle(&mut other.rules);
    other
}

/// The same treatment with some ranges cut in two.
pub fn split(random: &mut Random, parts: &Parts) -> Parts {
    let mut other = Parts {
        states: parts.states.clone(),
        rules: Vec::new(),
    };
    for (rule, terms) in &parts.rules {
        if rule.low < rule.high && random.one_in(2) {
            let at = rule.low + random.below((rule.high - rule.low) as usize) as u32;
            other
                .rules
                .push((Rule { high: at, ..*rule }, terms.clone()));
            other.rules.push((
                Rule {
                    low: at + 1,
                    ..*rule
                },
                terms.clone(),
            ));
        } else {
            other.rules.push((*rule, terms.clone()));
        }
    }
    other
}

/// Another filter: each rule into a state but the first writes one term at most and then a constant of that state.
pub fn marked(parts: &Parts) -> Parts {
    let mut other = parts.clone();
    for (rule, terms) in &mut other.rules {
        if rule.next != 0 {
            terms.truncate(1);
            terms.push(constant(32 + u32::from(rule.next)));
        }
    }
    other
}

/// The same treatment with a constant that all rules into a state write last put off until behind that state.
pub fn late(parts: &Parts) -> Parts {
    let mut other = parts.clone();
    for state in 1..parts.states.len() {
        let into: Vec<usize> = (0..other.rules.len())
            .filter(|i| usize::from(other.rules[*i].0.next) == state)
            .collect();
        let lasts: Vec<Option<Term>> = into
            .iter()
            .map(|i| other.rules[*i].1.last().copied())
            .collect();
        let Some(Some(last)) = lasts.first().copied() else {
            continue;
        };
        if last.tag != 0 || lasts.iter().any(|l| *l != Some(last)) {
            continue;
        }
        for i in into {
            other.rules[i].1.pop();
        }
        for (rule, terms) in &mut other.rules {
            if usize::from(rule.state) == state {
                terms.insert(0, last);
            }
        }
        if other.states[state].0 == 1 {
            other.states[state].1.insert(0, last);
        }
    }
    other
}

/// A sound filter with one thing changed, which may or may not be seen from outside.
pub fn changed(random: &mut Random, parts: &Parts) -> Parts {
    let mut other = parts.clone();
    let states = other.states.len();
    match random.below(4) {
        0 => {
            let state = random.below(states);
            other.states[state].0 = 1;
            other.states[state].1 = vec![constant(97)];
        }
        1 if !other.rules.is_empty() => {
            let i = random.below(other.rules.len());
            other.rules[i].0.next = random.below(states) as u16;
        }
        2 if !other.rules.is_empty() => {
            let i = random.below(other.rules.len());
            other.rules[i].1 = vec![constant(other.rules[i].0.low)];
        }
        _ if !other.rules.is_empty() => {
            let i = random.below(other.rules.len());
            other.rules.remove(i);
        }
        _ => {}
    }
    other
}

/// A table with a few numbers changed to anything, or lists cut or lengthened.
pub fn damaged(random: &mut Random, filter: &Filter) -> Filter {
    let mut f = filter.clone();
    for _ in 0..1 + random.below(2) {
        let (s, r, o) = (
            random.below(f.states.len().max(1)),
            random.below(f.rules.len().max(1)),
            random.below(f.outputs.len().max(1)),
        );
        match random.below(16) {
            0 => f
                .states
                .get_mut(s)
                .into_iter()
                .for_each(|x| x.mark = random.below(4) as u8),
            1 => f
                .states
                .get_mut(s)
                .into_iter()
                .for_each(|x| x.finals = random.below(40) as u16),
            2 => f
                .rules
                .get_mut(r)
                .into_iter()
                .for_each(|x| x.state = random.below(70) as u16),
            3 => f
                .rules
                .get_mut(r)
                .into_iter()
                .for_each(|x| x.next = random.next() as u16),
            4 => f
                .rules
                .get_mut(r)
                .into_iter()
                .for_each(|x| x.low = random.below(300) as u32),
            5 => f
                .rules
                .get_mut(r)
                .into_iter()
                .for_each(|x| x.high = random.below(300) as u32),
            6 => f
                .rules
                .get_mut(r)
                .into_iter()
                .for_each(|x| x.high = random.next() as u32),
            7 => f
                .rules
                .get_mut(r)
                .into_iter()
                .for_each(|x| x.outputs = random.below(40) as u16),
            8 => f
                .outputs
                .get_mut(o)
                .into_iter()
                .for_each(|x| x.tag = random.below(3) as u8),
            9 => f
                .outputs
                .get_mut(o)
                .into_iter()
                .for_each(|x| *x = constant(random.below(300) as u32)),
            10 => f
                .outputs
                .get_mut(o)
                .into_iter()
                .for_each(|x| *x = shift(random.below(600) as i32 - 300)),
            11 => f
                .outputs
                .get_mut(o)
                .into_iter()
                .for_each(|x| *x = shift(random.next() as i32)),
            12 => {
                let state = State { mark: 1, finals: 0 };
                let more = if random.one_in(3) { 70 } else { 1 };
                f.states.extend((0..more).map(|_| state));
            }
            13 => {
                f.outputs.pop();
            }
            14 => f.outputs.push(constant(97)),
            _ => {
                if let Some(rule) = f.rules.get(r).copied() {
                    let place = random.below(f.rules.len());
                    f.rules.insert(place, Rule { outputs: 0, ..rule });
                }
            }
        }
    }
    f
}

/// A cycle of states over the letter a, of which all but the last accept.
pub fn cycle(count: usize) -> Filter {
    let rule = |state: usize| Rule {
        state: state as u16,
        next: ((state + 1) % count) as u16,
        outputs: 1,
        low: 97,
        high: 97,
    };
    Filter {
        states: (0..count)
            .map(|state| State {
                mark: (state + 1 < count).into(),
                finals: 0,
            })
            .collect(),
        rules: (0..count).map(rule).collect(),
        outputs: vec![shift(0); count],
    }
}

/// A random text over the bytes of a shape, with a symbol beyond the bytes at times.
pub fn text(random: &mut Random, shape: Shape, length: usize) -> Vec<u32> {
    (0..length)
        .map(|_| match random.below(200) {
            0 => random.below(400) as u32,
            _ => shape.low + random.below((shape.high - shape.low + 1) as usize) as u32,
        })
        .collect()
}
