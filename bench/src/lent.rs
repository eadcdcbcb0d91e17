//! The library's calls over the slices that a caller lends.
use crate::{cases::Case, plain::Plain};
use tweedpillar::{encode_ub_change, enforce_ub, set_precision, start, State, ANSWER_WORDS, RECORD_WORDS, WORK_WORDS};

pub struct Lent {
    store: Vec<u32>,
    clauses: Vec<i32>,
    work: Vec<u32>,
}

impl Lent {
    /// Slices as long as this build needs, no longer; no word of them is 0.
    pub fn like(plain: &Plain) -> Self {
        Lent {
            store: vec![u32::MAX; RECORD_WORDS * plain.records()],
            clauses: vec![-1; plain.clauses.len()],
            work: vec![u32::MAX; WORK_WORDS],
        }
    }

    /// A start at divisor 1: the wrapper's start sets it.
    pub fn start(&mut self, case: &Case) -> State {
        start(&case.lits, &case.weights, case.first, &mut self.store, &mut self.clauses).expect("start")
    }

    pub fn set(&self, state: State, divisor: u64) -> State {
        set_precision(state, &self.store, &self.clauses, divisor).expect("set")
    }

    pub fn encode(&mut self, state: State, lo: u64, end: u64) -> State {
        encode_ub_change(state, &mut self.store, &mut self.clauses, &mut self.work, lo, end).expect("encode")
    }

    pub fn enforce<'a>(&self, state: State, scratch: &'a mut [i32; ANSWER_WORDS], u: u64) -> &'a [i32] {
        enforce_ub(state, &self.store, &self.clauses, scratch, u).expect("enforce")
    }

    /// Bytes of store, clause buffer and work slice: each word is used or set to 0 once start and encode were called.
    pub fn bytes(&self) -> [usize; 3] {
        [4 * self.store.len(), 4 * self.clauses.len(), 4 * self.work.len()]
    }

    /// Stops the run unless both sides have the same records, clauses and answer.
    pub fn must_equal(&self, state: State, plain: &Plain, case: &Case) {
        let name = format!("{} inputs, weights {}, {}", case.lits.len(), case.kind, case.range);
        assert!(state.records == plain.records(), "{name}: records differ");
        assert!(state.clauses == plain.count, "{name}: counts of clauses differ");
        assert!(self.clauses[..state.words] == plain.clauses[..], "{name}: clauses differ");
        let mut scratch = [0; ANSWER_WORDS];
        let answer = self.enforce(state, &mut scratch, case.lo).to_vec();
        assert!(plain.enforce(case.lo) == Some(answer), "{name}: answers differ");
    }
}
