//! An independent implementation of the same calls, as plain as possible: it goes through all 256 bytes.
use crate::library::{Answer, Filter, Rule, State, Term, constant, shift};
use std::collections::{HashMap, HashSet, VecDeque};

pub const BYTES: u32 = 256;
pub const MOST_SYMBOLS: usize = 1 << 20;

fn answer(kind: u32, first: usize, second: usize, third: usize) -> Answer {
    Answer {
        kind,
        first,
        second,
        third,
    }
}

/// The value of a term at a byte.
pub fn value(term: Term, symbol: u32) -> Option<u32> {
    if symbol >= BYTES {
        return None;
    }
    if term.tag == 0 {
        return Some(term.constant);
    }
    let sum = i64::from(symbol) + i64::from(term.shift);
    (0..i64::from(BYTES)).contains(&sum).then_some(sum as u32)
}

fn term_is_sound(term: Term) -> bool {
    if term.tag == 0 {
        term.constant < BYTES
    } else {
        (-255..=255).contains(&term.shift)
    }
}

fn holds(rule: &Rule, symbol: u32) -> bool {
    symbol < BYTES && rule.low <= symbol && symbol <= rule.high
}

/// The first fault as (number, place, cause).
pub fn fault(f: &Filter) -> Option<(usize, usize, usize)> {
    let n = f.states.len();
    if n < 1 || n > 64 || f.rules.len() > 1024 || f.outputs.len() > 4096 {
        return Some((3, 0, 0));
    }
    for (q, s) in f.states.iter().enumerate() {
        if s.mark > 1 || s.finals > 32 || (s.mark == 0 && s.finals > 0) {
            return Some((4, q, 0));
        }
    }
    for (i, r) in f.rules.iter().enumerate() {
        if usize::from(r.state) >= n || usize::from(r.next) >= n {
            return Some((5, i, 0));
        }
        if r.low > r.high {
            return Some((6, i, 1));
        }
        if r.high >= BYTES {
            return Some((6, i, 2));
        }
        if r.outputs > 32 {
            return Some((7, i, 0));
        }
    }
    let finals: usize = f.states.iter().map(|s| usize::from(s.finals)).sum();
    let of_rules: usize = f.rules.iter().map(|r| usize::from(r.outputs)).sum();
    if f.outputs.len() != finals + of_rules {
        return Some((8, 0, 0));
    }
    for (k, t) in f.outputs[..finals].iter().enumerate() {
        if !term_is_sound(*t) {
            return Some((10, k, 3));
        }
        if t.tag != 0 {
            return Some((9, k, 0));
        }
    }
    let mut k = finals;
    for r in &f.rules {
        for _ in 0..r.outputs {
            if !term_is_sound(f.outputs[k]) {
                return Some((10, k, 3));
            }
            if (r.low..=r.high).any(|s| value(f.outputs[k], s).is_none()) {
                return Some((10, k, 4));
            }
            k += 1;
        }
    }
    for (j, later) in f.rules.iter().enumerate() {
        for earlier in &f.rules[..j] {
            if earlier.state == later.state
                && (0..BYTES).any(|s| holds(earlier, s) && holds(later, s))
            {
                return Some((11, j, 0));
            }
        }
    }
    None
}

pub fn check(f: &Filter) -> Answer {
    match fault(f) {
        None => answer(0, 0, 0, 0),
        Some((number, place, cause)) => answer(2, number, place, cause),
    }
}

/// A sound filter spelled out: for each state its final output, and for each byte what is written and the next state.
pub struct Machine {
    pub finals: Vec<Option<Vec<u32>>>,
    pub moves: Vec<Vec<Option<(Vec<u32>, usize)>>>,
}

impl Machine {
    pub fn new(f: &Filter) -> Machine {
        let mut k = 0;
        let mut finals = Vec::new();
        for s in &f.states {
            let end = k + usize::from(s.finals);
            let symbols = f.outputs[k..end].iter().map(|t| t.constant).collect();
            finals.push((s.mark == 1).then_some(symbols));
            k = end;
        }
        let mut moves = vec![vec![None; BYTES as usize]; f.states.len()];
        for r in &f.rules {
            let end = k + usize::from(r.outputs);
            for s in r.low..=r.high {
                let written = f.outputs[k..end]
                    .iter()
                    .filter_map(|t| value(*t, s))
                    .collect();
                moves[usize::from(r.state)][s as usize] = Some((written, usize::from(r.next)));
            }
            k = end;
        }
        Machine { finals, moves }
    }

    /// What is written for a text and the state reached, or the position of the rejection.
    pub fn run(&self, text: &[u32]) -> Result<(usize, Vec<u32>), usize> {
        let mut state = 0;
        let mut out = Vec::new();
        for (position, symbol) in text.iter().enumerate() {
            let found = self.moves[state]
                .get(*symbol as usize)
                .and_then(Option::as_ref);
            let (written, next) = found.ok_or(position)?;
            out.extend_from_slice(written);
            state = *next;
        }
        out.extend_from_slice(self.finals[state].as_ref().ok_or(text.len())?);
        Ok((state, out))
    }

    /// Which states can still accept.
    fn live(&self) -> Vec<bool> {
        let mut live: Vec<bool> = self.finals.iter().map(Option::is_some).collect();
        loop {
            let before = live.clone();
            for (q, row) in self.moves.iter().enumerate() {
                live[q] |= row.iter().flatten().any(|(_, next)| before[*next]);
            }
            if live == before {
                return live;
            }
        }
    }
}

pub fn transduce(f: &Filter, text: &[u32], out: &mut [u32]) -> Answer {
    if let Some((number, place, cause)) = fault(f) {
        return answer(2, number, place, cause);
    }
    if text.len() > MOST_SYMBOLS {
        return answer(2, 3, 1, 0);
    }
    match Machine::new(f).run(text) {
        Err(position) => answer(1, position, 0, 0),
        Ok((_, written)) if written.len() > out.len() => answer(2, 16, written.len(), 0),
        Ok((state, written)) => {
            out[..written.len()].copy_from_slice(&written);
            answer(0, state, written.len(), 0)
        }
    }
}

/// Where two filters stand after a text: a state each, or none where nothing can be accepted any more, and what each has
/// written beyond the common front.
#[derive(Clone, PartialEq, Eq, Hash)]
struct Place {
    left: Option<usize>,
    right: Option<usize>,
    lag: (Vec<u32>, Vec<u32>),
}

fn onward(
    m: &Machine,
    live: &[bool],
    state: Option<usize>,
    symbol: u32,
    lag: &mut Vec<u32>,
) -> Option<usize> {
    let (written, next) = m.moves[state?][symbol as usize].as_ref()?;
    lag.extend_from_slice(written);
    live[*next].then_some(*next)
}

/// The earliest of the shortest texts that distinguish two sound filters; `Err` where too many places were seen.
pub fn distinguish(f: &Filter, g: &Filter, most: usize) -> Result<Option<Vec<u32>>, ()> {
    let (m, n) = (Machine::new(f), Machine::new(g));
    let (live_m, live_n) = (m.live(), n.live());
    let start = Place {
        left: live_m[0].then_some(0),
        right: live_n[0].then_some(0),
        lag: (Vec::new(), Vec::new()),
    };
    let mut seen = HashSet::from([start.clone()]);
    let mut queue = VecDeque::from([(start, Vec::new())]);
    while let Some((place, text)) = queue.pop_front() {
        let ended = |m: &Machine, state: Option<usize>, lag: &Vec<u32>| {
            let last = m.finals[state?].as_ref()?;
            Some([lag.as_slice(), last.as_slice()].concat())
        };
        if ended(&m, place.left, &place.lag.0) != ended(&n, place.right, &place.lag.1) {
            return Ok(Some(text));
        }
        for symbol in 0..BYTES {
            let (mut x, mut y) = place.lag.clone();
            let left = onward(&m, &live_m, place.left, symbol, &mut x);
            let right = onward(&n, &live_n, place.right, symbol, &mut y);
            if left.is_none() && right.is_none() {
                continue;
            }
            if left.is_none() || right.is_none() {
                x.clear();
                y.clear();
            }
            let common = x.iter().zip(&y).take_while(|(a, b)| a == b).count();
            let next = Place {
                left,
                right,
                lag: (x.split_off(common), y.split_off(common)),
            };
            if seen.insert(next.clone()) {
                if seen.len() > most {
                    return Err(());
                }
                let mut longer = text.clone();
                longer.push(symbol);
                queue.push_back((next, longer));
            }
        }
    }
    Ok(None)
}

/// A way through the second filter: the guard left, the state reached, and the terms.
struct Way {
    low: u32,
    high: u32,
    next: u16,
    terms: Vec<Term>,
}

fn followed(first: Term, second: Term) -> Option<Term> {
    match (first.tag, second.tag) {
        (0, _) => value(second, first.constant).map(constant),
        (_, 0) => Some(constant(second.constant)),
        _ => {
            let sum = first.shift + second.shift;
            (-255..=255).contains(&sum).then(|| shift(sum))
        }
    }
}

struct Second<'a> {
    filter: &'a Filter,
    starts: Vec<usize>,
}

impl Second<'_> {
    fn outputs(&self, rule: usize) -> &[Term] {
        let from = self.starts[rule];
        &self.filter.outputs[from..from + usize::from(self.filter.rules[rule].outputs)]
    }

    fn ways(&self, terms: &[Term], way: Way, found: &mut Vec<Way>) {
        let Some((term, rest)) = terms.split_first() else {
            found.push(way);
            return;
        };
        for (i, rule) in self.filter.rules.iter().enumerate() {
            if rule.state != way.next {
                continue;
            }
            let inside: Vec<u32> = (way.low..=way.high)
                .filter(|s| value(*term, *s).is_some_and(|v| holds(rule, v)))
                .collect();
            let (Some(low), Some(high)) = (inside.first(), inside.last()) else {
                continue;
            };
            let more = self
                .outputs(i)
                .iter()
                .map(|u| followed(*term, *u).expect("both are defined"));
            let terms = way.terms.iter().copied().chain(more).collect();
            let longer = Way {
                low: *low,
                high: *high,
                next: rule.next,
                terms,
            };
            self.ways(rest, longer, found);
        }
    }
}

fn starts(f: &Filter) -> Vec<usize> {
    let mut k: usize = f.states.iter().map(|s| usize::from(s.finals)).sum();
    f.rules
        .iter()
        .map(|r| {
            k += usize::from(r.outputs);
            k - usize::from(r.outputs)
        })
        .collect()
}

/// The joined filter of two sound ones, or none where it is over a limit.
pub fn join(f: &Filter, g: &Filter) -> Option<Filter> {
    let first_starts = starts(f);
    let second = Second {
        filter: g,
        starts: starts(g),
    };
    let (m, n) = (Machine::new(f), Machine::new(g));
    let mut numbers = HashMap::from([((0u16, 0u16), 0u16)]);
    let mut pairs = vec![(0u16, 0u16)];
    let mut joined = Filter::default();
    let mut rule_outputs = Vec::new();
    let mut at = 0;
    while at < pairs.len() {
        let (p, q) = pairs[at];
        for (i, rule) in f.rules.iter().enumerate() {
            if rule.state != p {
                continue;
            }
            let from = first_starts[i];
            let terms = &f.outputs[from..from + usize::from(rule.outputs)];
            let mut found = Vec::new();
            let whole = Way {
                low: rule.low,
                high: rule.high,
                next: q,
                terms: Vec::new(),
            };
            second.ways(terms, whole, &mut found);
            for way in found {
                let pair = (rule.next, way.next);
                let next = *numbers.entry(pair).or_insert_with(|| {
                    pairs.push(pair);
                    (pairs.len() - 1) as u16
                });
                if way.terms.len() > 32 {
                    return None;
                }
                joined.rules.push(Rule {
                    state: at as u16,
                    next,
                    outputs: way.terms.len() as u16,
                    low: way.low,
                    high: way.high,
                });
                rule_outputs.extend(way.terms);
            }
        }
        at += 1;
        if pairs.len() > 64 || joined.rules.len() > 1024 {
            return None;
        }
    }
    for (p, q) in &pairs {
        let closing = m.finals[usize::from(*p)].as_ref().and_then(|symbols| {
            let mut state = usize::from(*q);
            let mut out = Vec::new();
            for symbol in symbols {
                let (written, next) = n.moves[state][*symbol as usize].as_ref()?;
                out.extend_from_slice(written);
                state = *next;
            }
            out.extend_from_slice(n.finals[state].as_ref()?);
            Some(out)
        });
        let symbols = closing.as_deref().unwrap_or_default();
        if symbols.len() > 32 {
            return None;
        }
        joined.states.push(State {
            mark: closing.is_some().into(),
            finals: symbols.len() as u16,
        });
        joined.outputs.extend(symbols.iter().map(|s| constant(*s)));
    }
    joined.outputs.extend(rule_outputs);
    (joined.outputs.len() <= 4096).then_some(joined)
}
