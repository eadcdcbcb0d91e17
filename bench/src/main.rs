//! The library against a plain writing of the same algorithm, on the same inputs, in one run.
//!
//!     bench                            times, refinements and bytes, one after the other
//!     bench times [INPUTS...]          encode and enforce: processor time of each side, the ratio, growth with inputs
//!     bench refinements [INPUTS...]    the same for a refinement
//!     bench bytes [INPUTS...]          bytes that an encode leaves written, against memory bandwidth
//!     bench sizes [INPUTS...]          what store, clause buffer and numbers a build needs
//!     bench alone PART INPUTS WEIGHTS RANGE    one part once, for bench/instructions to count: `sized` (the plain side once, and slices
//!                                              as long as its build needs), `plain` (sized, and the plain side again), `library`
//!                                              (sized, then start and encode), `enforce` (library, then an enforce)
//!
//! Both sides must write the same clauses and answer the same literals, else it stops. INPUTS are 16 64 128 256 by default.
mod cases;
mod clock;
mod lent;
mod plain;

use cases::{cases, Case, KINDS};
use clock::{median, timed, write_bandwidth, FILLED_GIB, FILLS};
use lent::Lent;
use plain::Plain;
use std::hint::black_box;
use tweedpillar::{State, ANSWER_WORDS};

fn head(title: &str, columns: &str) {
    println!("## {title}\n\n| {columns} |\n|{}", "---|".repeat(1 + columns.matches('|').count()));
}

/// Two significant digits, and every digit before the point.
fn short(number: f64) -> String {
    let places = (1.0 - number.log10().floor()).clamp(0.0, 9.0);
    format!("{number:.*}", places as usize)
}

/// Both sides run in turn: the median time of each, and what each reached in the last turn.
struct Turns<A, B> {
    us: f64,
    reached: A,
    plain_us: f64,
    plain: B,
}

/// The more clauses, the fewer turns.
fn in_turn<A, B>(clauses: usize, mut ours: impl FnMut() -> (f64, A), mut theirs: impl FnMut() -> (f64, B)) -> Turns<A, B> {
    let runs = match clauses { 0..=20_000 => 9, 20_001..=200_000 => 3, _ => 1 };
    let (mut times, mut plain_times) = (vec![], vec![]);
    loop {
        let ((us, reached), (plain_us, plain)) = (ours(), theirs());
        times.push(us);
        plain_times.push(plain_us);
        if times.len() == runs {
            return Turns { us: median(times), reached, plain_us: median(plain_times), plain };
        }
    }
}

fn start_and_encode(case: &Case) -> Plain {
    let mut plain = Plain::new(&case.lits, &case.weights, case.first);
    plain.encode(case.lo, case.end);
    plain
}

/// Start and encode by both sides.
fn encodes(case: &Case) -> (Lent, Turns<State, Plain>) {
    let plain = start_and_encode(case);
    let mut lent = Lent::like(&plain);
    let ours = || {
        timed(|| {
            let state = lent.start(case);
            lent.encode(state, case.lo, case.end)
        })
    };
    let turns = in_turn(plain.count, ours, || timed(|| start_and_encode(case)));
    lent.must_equal(turns.reached, &turns.plain, case);
    (lent, turns)
}

/// Enforce by both sides, the plain one a thousand times a turn: the microseconds of one call each.
fn enforces(case: &Case, lent: &Lent, state: State, plain: &Plain) -> (f64, f64) {
    let mut scratch = [0; ANSWER_WORDS];
    let ours = || timed(|| lent.enforce(state, &mut scratch, case.lo).len());
    let thousand = || {
        let (us, ()) = timed(|| (0..1000).for_each(|_| drop(black_box(plain.enforce(black_box(case.lo))))));
        (us / 1000.0, ())
    };
    let turns = in_turn(plain.count, ours, thousand);
    (turns.us, turns.plain_us)
}

fn times(counts: &[usize]) {
    head(
        "Encode and enforce",
        "inputs | weights | range | records | clauses | variables | encode, us | plain encode, us | encode ratio \
         | enforce, us | plain enforce, us | enforce ratio",
    );
    let mut measured = vec![];
    for case in cases(counts, &["one bound", "a tenth"]) {
        let (lent, Turns { us, reached, plain_us, plain }) = encodes(&case);
        let (enforce, plain_enforce) = enforces(&case, &lent, reached, &plain);
        println!(
            "| {} | {} | {} | {} | {} | {} | {us:.0} | {plain_us:.0} | {:.1} | {enforce:.0} | {plain_enforce:.2} | {:.0} |",
            case.lits.len(), case.kind, case.range, reached.records, reached.clauses, reached.variables,
            us / plain_us, enforce / plain_enforce
        );
        if case.range == "one bound" {
            measured.push((case, [reached.clauses as f64, us, plain_us]));
        }
    }
    if counts.iter().any(|count| *count != counts[0]) {
        println!();
        growth(&measured);
    }
}

/// The power of the inputs as which a figure grows: the slope of its logarithm over theirs, by least squares.
fn exponent(points: &[(f64, f64)]) -> f64 {
    let logs: Vec<(f64, f64)> = points.iter().map(|(inputs, figure)| (inputs.ln(), figure.ln())).collect();
    let mean = |values: &dyn Fn(&(f64, f64)) -> f64| logs.iter().map(values).sum::<f64>() / logs.len() as f64;
    let (x, y) = (mean(&|point| point.0), mean(&|point| point.1));
    mean(&|point| (point.0 - x) * (point.1 - y)) / mean(&|point| (point.0 - x).powi(2))
}

fn growth(measured: &[(Case, [f64; 3])]) {
    head("Growth with inputs", "weights | exponent of clauses | exponent of encode | exponent of plain encode");
    for kind in KINDS {
        let rows = measured.iter().filter(|(case, _)| case.kind == kind);
        let points = |column: usize| -> Vec<(f64, f64)> {
            rows.clone().map(|(case, figures)| (case.lits.len() as f64, figures[column])).collect()
        };
        println!("| {kind} | {:.2} | {:.2} | {:.2} |", exponent(&points(0)), exponent(&points(1)), exponent(&points(2)));
    }
}

/// The bound encoded at the coarse divisor, untimed; then divisor 1 set and the bound encoded again.
fn refine_plain(case: &Case, divisor: u64) -> (f64, Plain) {
    let mut plain = Plain::new(&case.lits, &case.weights, case.first);
    plain.set(divisor);
    plain.encode(case.lo / divisor, case.lo / divisor + 1);
    let (us, ()) = timed(|| {
        plain.set(1);
        plain.encode(case.lo, case.end);
    });
    (us, plain)
}

/// The same through the library: the states before and after.
fn refine_ours(case: &Case, divisor: u64, lent: &mut Lent) -> (f64, [State; 2]) {
    let state = lent.start(case);
    let state = lent.set(state, divisor);
    let coarse = lent.encode(state, case.lo / divisor, case.lo / divisor + 1);
    let (us, refined) = timed(|| {
        let state = lent.set(coarse, 1);
        lent.encode(state, case.lo, case.end)
    });
    (us, [coarse, refined])
}

fn refinements(counts: &[usize]) {
    head(
        "Refinement",
        "inputs | weights | divisor | clauses before | clauses | records before | records | refine, us | plain refine, us | refine ratio",
    );
    for case in cases(counts, &["one bound"]) {
        let divisor = case.coarse_divisor();
        let (_, plain) = refine_plain(&case, divisor);
        let mut lent = Lent::like(&plain);
        let turns = in_turn(plain.count, || refine_ours(&case, divisor, &mut lent), || refine_plain(&case, divisor));
        let [coarse, refined] = turns.reached;
        lent.must_equal(refined, &turns.plain, &case);
        if refined.built == coarse.built {
            continue; // nothing waited, so nothing was refined
        }
        println!(
            "| {} | {} | {divisor} | {} | {} | {} | {} | {:.0} | {:.0} | {:.1} |",
            case.lits.len(), case.kind, coarse.clauses, refined.clauses, coarse.records, refined.records,
            turns.us, turns.plain_us, turns.us / turns.plain_us
        );
    }
}

fn bytes(counts: &[usize]) {
    let bandwidth = write_bandwidth();
    head(
        "Bytes written",
        "inputs | weights | store, bytes | clauses, bytes | work, bytes | encode, us | MB/s | % of bandwidth \
         | plain encode, us | plain MB/s | plain % of bandwidth",
    );
    for case in cases(counts, &["one bound"]) {
        let (lent, Turns { us, plain_us, plain, .. }) = encodes(&case);
        let [store, clauses, work] = lent.bytes();
        let rate = (store + clauses + work) as f64 / us;
        let plain_rate = (4 * plain.clauses.len()) as f64 / plain_us;
        println!(
            "| {} | {} | {store} | {clauses} | {work} | {us:.0} | {} | {} | {plain_us:.0} | {} | {} |",
            case.lits.len(), case.kind, short(rate), short(100.0 * rate / bandwidth),
            short(plain_rate), short(100.0 * plain_rate / bandwidth)
        );
    }
    println!("\nBandwidth: {bandwidth:.0} MB/s, the median of {FILLS} fills of {FILLED_GIB} GiB.");
}

fn sizes(counts: &[usize]) {
    head("Sizes", "inputs | weights | range | records | clauses | clause words | variables");
    for case in cases(counts, &["one bound", "every bound"]) {
        let plain = start_and_encode(&case);
        let mut lent = Lent::like(&plain);
        let state = lent.start(&case);
        let state = lent.encode(state, case.lo, case.end);
        lent.must_equal(state, &plain, &case);
        println!(
            "| {} | {} | {} | {} | {} | {} | {} |",
            case.lits.len(), case.kind, case.range, state.records, state.clauses, state.words, state.variables
        );
    }
}

/// One part of the work on one case.
fn alone(words: &[String]) {
    let (part, count, kind, range) = match words {
        [part, count, kind, range] => (part, count, kind, range),
        _ => refuse("alone takes a part, the inputs, the weights and the range"),
    };
    let counts = counts(&[count.clone()]);
    let ranges = ["one bound", "a tenth", "every bound"];
    let found = cases(&counts, &ranges).find(|case| case.kind == kind && case.range == range);
    let case = found.unwrap_or_else(|| refuse(&format!("no case has weights '{kind}' and range '{range}'")));
    let plain = start_and_encode(&case);
    let mut lent = Lent::like(&plain);
    match part.as_str() {
        "sized" => (),
        "plain" => drop(black_box(start_and_encode(&case))),
        "library" | "enforce" => {
            let state = lent.start(&case);
            let state = lent.encode(state, case.lo, case.end);
            if part == "enforce" {
                black_box(lent.enforce(state, &mut [0; ANSWER_WORDS], case.lo).len());
            }
        }
        _ => refuse(&format!("a part is sized, plain, library or enforce, not {part}")),
    }
    black_box(&plain);
}

fn refuse(why: &str) -> ! {
    eprintln!("bench: {why}");
    std::process::exit(2)
}

fn counts(words: &[String]) -> Vec<usize> {
    if words.is_empty() {
        return vec![16, 64, 128, 256];
    }
    match words.iter().map(|word| word.parse()).collect::<Result<Vec<usize>, _>>() {
        Ok(counts) if counts.iter().all(|count| (2..=256).contains(count)) => counts,
        _ => refuse("the number of inputs is 2 to 256"),
    }
}

fn main() {
    let words: Vec<String> = std::env::args_os().skip(1).map(|word| word.to_string_lossy().into_owned()).collect();
    let (table, rest) = match words.split_first() {
        Some(words) => words,
        None => {
            let counts = counts(&[]);
            times(&counts);
            println!();
            refinements(&counts);
            println!();
            return bytes(&counts);
        }
    };
    match table.as_str() {
        "times" => times(&counts(rest)),
        "refinements" => refinements(&counts(rest)),
        "bytes" => bytes(&counts(rest)),
        "sizes" => sizes(&counts(rest)),
        "alone" => alone(rest),
        _ => refuse(&format!("the first word is times, refinements, bytes, sizes or alone, not {table}")),
    }
}
