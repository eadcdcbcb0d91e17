//! The calls of libtweedpillar over slices. include/tweedpillar.h says what each answers and writes.
//!
//! Borrows keep what the library asks of a caller: each slice is valid, and what a call writes overlaps nothing else.

pub const WORK_WORDS: usize = 16_384;
pub const ANSWER_WORDS: usize = 20;
pub const RECORD_WORDS: usize = 8;

/// A build, as the caller holds it between calls.
#[repr(C)]
#[derive(Clone, Copy, Debug, PartialEq, Eq)]
pub struct State {
    pub inputs: u32,
    pub sum: u64,
    pub set: u64,
    pub built: u64,
    pub records: usize,
    pub words: usize,
    pub clauses: usize,
    pub variables: u32,
    pub fresh: u32,
    pub tares: [u32; 19],
    pub tares_used: u32,
    pub buckets: [u32; 20],
    pub buckets_used: u32,
}

#[repr(C)]
struct Answered {
    refusal: u32,
    state: State,
}

#[repr(C)]
struct Encoded {
    refusal: u32,
    variables: u32,
    clauses: usize,
    state: State,
}

#[repr(C)]
struct Value {
    refusal: u32,
    value: u64,
}

/// A refusal number, 1 to 12.
#[derive(Clone, Copy, Debug, PartialEq, Eq)]
pub struct Refused(pub u32);

mod raw {
    use super::{Answered, Encoded, State, Value};
    extern "C" {
        pub fn tweedpillar_start(
            l: *const i32, ll: usize, w: *const u64, wl: usize, first: u32, s: *mut u32, sl: usize, c: *mut i32, cl: usize,
        ) -> Answered;
        pub fn tweedpillar_set_precision(st: State, s: *const u32, sl: usize, c: *const i32, cl: usize, d: u64) -> Answered;
        pub fn tweedpillar_next_precision(st: State, s: *const u32, sl: usize, c: *const i32, cl: usize) -> Value;
        pub fn tweedpillar_is_max_precision(st: State, s: *const u32, sl: usize, c: *const i32, cl: usize) -> Value;
        pub fn tweedpillar_encode_ub_change(
            st: State, s: *mut u32, sl: usize, c: *mut i32, cl: usize, w: *mut u32, wl: usize, lo: u64, end: u64,
        ) -> Encoded;
        pub fn tweedpillar_enforce_ub(
            st: State, s: *const u32, sl: usize, c: *const i32, cl: usize, a: *mut i32, al: usize, u: u64, refusal: *mut u32,
        ) -> usize;
        pub fn tweedpillar_coarse_ub(st: State, s: *const u32, sl: usize, c: *const i32, cl: usize, u: u64) -> Value;
    }
}

fn accepted<T>(refusal: u32, value: T) -> Result<T, Refused> {
    if refusal == 0 { Ok(value) } else { Err(Refused(refusal)) }
}

/// A new build at divisor 1: `start_coarse`, then `set_precision` to 1.
pub fn start(lits: &[i32], weights: &[u64], first: u32, store: &mut [u32], clauses: &mut [i32]) -> Result<State, Refused> {
    let state = start_coarse(lits, weights, first, store, clauses)?;
    set_precision(state, store, clauses, 1)
}

/// A new build at the divisor that the library's start chooses, the top power of the largest weight.
pub fn start_coarse(
    lits: &[i32], weights: &[u64], first: u32, store: &mut [u32], clauses: &mut [i32],
) -> Result<State, Refused> {
    let r = unsafe {
        raw::tweedpillar_start(
            lits.as_ptr(), lits.len(), weights.as_ptr(), weights.len(), first,
            store.as_mut_ptr(), store.len(), clauses.as_mut_ptr(), clauses.len(),
        )
    };
    accepted(r.refusal, r.state)
}

pub fn set_precision(s: State, store: &[u32], clauses: &[i32], divisor: u64) -> Result<State, Refused> {
    let r = unsafe {
        raw::tweedpillar_set_precision(s, store.as_ptr(), store.len(), clauses.as_ptr(), clauses.len(), divisor)
    };
    accepted(r.refusal, r.state)
}

pub fn next_precision(s: State, store: &[u32], clauses: &[i32]) -> Result<u64, Refused> {
    let r = unsafe { raw::tweedpillar_next_precision(s, store.as_ptr(), store.len(), clauses.as_ptr(), clauses.len()) };
    accepted(r.refusal, r.value)
}

pub fn is_max_precision(s: State, store: &[u32], clauses: &[i32]) -> Result<bool, Refused> {
    let r = unsafe { raw::tweedpillar_is_max_precision(s, store.as_ptr(), store.len(), clauses.as_ptr(), clauses.len()) };
    accepted(r.refusal, r.value == 1)
}

/// The state that is reached; its `clauses` and `variables` are the totals.
pub fn encode_ub_change(
    s: State, store: &mut [u32], clauses: &mut [i32], work: &mut [u32], lo: u64, end: u64,
) -> Result<State, Refused> {
    let r = unsafe {
        raw::tweedpillar_encode_ub_change(
            s, store.as_mut_ptr(), store.len(), clauses.as_mut_ptr(), clauses.len(), work.as_mut_ptr(), work.len(), lo, end,
        )
    };
    debug_assert_eq!((r.clauses, r.variables), (r.state.clauses, r.state.variables));
    accepted(r.refusal, r.state)
}

/// The answer is the front part of the caller's own scratch.
pub fn enforce_ub<'a>(
    s: State, store: &[u32], clauses: &[i32], scratch: &'a mut [i32], u: u64,
) -> Result<&'a mut [i32], Refused> {
    let mut refusal = 0;
    let count = unsafe {
        raw::tweedpillar_enforce_ub(
            s, store.as_ptr(), store.len(), clauses.as_ptr(), clauses.len(),
            scratch.as_mut_ptr(), scratch.len(), u, &mut refusal,
        )
    };
    accepted(refusal, &mut scratch[..count])
}

pub fn coarse_ub(s: State, store: &[u32], clauses: &[i32], u: u64) -> Result<u64, Refused> {
    let r = unsafe { raw::tweedpillar_coarse_ub(s, store.as_ptr(), store.len(), clauses.as_ptr(), clauses.len(), u) };
    accepted(r.refusal, r.value)
}
