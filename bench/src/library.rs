//! The exported calls of the library, wrapped for slices. Nothing checks the declarations against the Rattle source.

#[repr(C)]
#[derive(Clone, Copy, Debug, PartialEq, Eq)]
pub struct State {
    pub mark: u8,
    pub finals: u16,
}

#[repr(C)]
#[derive(Clone, Copy, Debug, PartialEq, Eq)]
pub struct Rule {
    pub state: u16,
    pub next: u16,
    pub outputs: u16,
    pub low: u32,
    pub high: u32,
}

/// A constant where the tag is 0, else a shift.
#[repr(C)]
#[derive(Clone, Copy, Debug, PartialEq, Eq)]
pub struct Term {
    pub tag: u8,
    pub constant: u32,
    pub shift: i32,
}

pub const fn constant(symbol: u32) -> Term {
    Term {
        tag: 0,
        constant: symbol,
        shift: 0,
    }
}

pub const fn shift(by: i32) -> Term {
    Term {
        tag: 1,
        constant: 0,
        shift: by,
    }
}

#[repr(C)]
#[derive(Clone, Copy, Debug, PartialEq, Eq)]
pub struct Answer {
    pub kind: u32,
    pub first: usize,
    pub second: usize,
    pub third: usize,
}

/// A table of which nothing is known.
#[derive(Clone, Debug, PartialEq, Eq, Default)]
pub struct Filter {
    pub states: Vec<State>,
    pub rules: Vec<Rule>,
    pub outputs: Vec<Term>,
}

unsafe extern "C" {
    fn cutamllay_check(
        states: *const State,
        states_len: usize,
        rules: *const Rule,
        rules_len: usize,
        outputs: *const Term,
        outputs_len: usize,
    ) -> Answer;

    fn cutamllay_transduce(
        states: *const State,
        states_len: usize,
        rules: *const Rule,
        rules_len: usize,
        outputs: *const Term,
        outputs_len: usize,
        text: *const u32,
        text_len: usize,
        out: *mut u32,
        out_len: usize,
    ) -> Answer;

    fn cutamllay_compare(
        first_states: *const State,
        first_states_len: usize,
        first_rules: *const Rule,
        first_rules_len: usize,
        first_outputs: *const Term,
        first_outputs_len: usize,
        second_states: *const State,
        second_states_len: usize,
        second_rules: *const Rule,
        second_rules_len: usize,
        second_outputs: *const Term,
        second_outputs_len: usize,
        witness: *mut u32,
        witness_len: usize,
    ) -> Answer;

    fn cutamllay_join(
        first_states: *const State,
        first_states_len: usize,
        first_rules: *const Rule,
        first_rules_len: usize,
        first_outputs: *const Term,
        first_outputs_len: usize,
        second_states: *const State,
        second_states_len: usize,
        second_rules: *const Rule,
        second_rules_len: usize,
        second_outputs: *const Term,
        second_outputs_len: usize,
        states: *mut State,
        states_len: usize,
        rules: *mut Rule,
        rules_len: usize,
        outputs: *mut Term,
        outputs_len: usize,
    ) -> Answer;
}

// SAFETY, for all four: each pair of a pointer and a length comes from one slice that lives over the call, the slices that
// are written to are borrowed mutably, and the calls have no `requires`.

pub fn check(f: &Filter) -> Answer {
    unsafe {
        cutamllay_check(
            f.states.as_ptr(),
            f.states.len(),
            f.rules.as_ptr(),
            f.rules.len(),
            f.outputs.as_ptr(),
            f.outputs.len(),
        )
    }
}

pub fn transduce(f: &Filter, text: &[u32], out: &mut [u32]) -> Answer {
    unsafe {
        cutamllay_transduce(
            f.states.as_ptr(),
            f.states.len(),
            f.rules.as_ptr(),
            f.rules.len(),
            f.outputs.as_ptr(),
            f.outputs.len(),
            text.as_ptr(),
            text.len(),
            out.as_mut_ptr(),
            out.len(),
        )
    }
}

pub fn compare(f: &Filter, g: &Filter, witness: &mut [u32]) -> Answer {
    unsafe {
        cutamllay_compare(
            f.states.as_ptr(),
            f.states.len(),
            f.rules.as_ptr(),
            f.rules.len(),
            f.outputs.as_ptr(),
            f.outputs.len(),
            g.states.as_ptr(),
            g.states.len(),
            g.rules.as_ptr(),
            g.rules.len(),
            g.outputs.as_ptr(),
            g.outputs.len(),
            witness.as_mut_ptr(),
            witness.len(),
        )
    }
}

pub fn join(
    f: &Filter,
    g: &Filter,
    states: &mut [State],
    rules: &mut [Rule],
    outputs: &mut [Term],
) -> Answer {
    unsafe {
        cutamllay_join(
            f.states.as_ptr(),
            f.states.len(),
            f.rules.as_ptr(),
            f.rules.len(),
            f.outputs.as_ptr(),
            f.outputs.len(),
            g.states.as_ptr(),
            g.states.len(),
            g.rules.as_ptr(),
            g.rules.len(),
            g.outputs.as_ptr(),
            g.outputs.len(),
            states.as_mut_ptr(),
            states.len(),
            rules.as_mut_ptr(),
            rules.len(),
            outputs.as_mut_ptr(),
            outputs.len(),
        )
    }
}
