//! Document 01's worked case P3: literals 1, 2, 3 with weights 1, 2, 3, bounds 2 and 3 encoded.
use tweedpillar::{encode_ub_change, enforce_ub, start, Refused, ANSWER_WORDS, RECORD_WORDS, WORK_WORDS};

fn main() -> Result<(), Refused> {
    let (mut store, mut clauses, mut work) = (vec![0; RECORD_WORDS * 14], vec![0; 34], vec![0; WORK_WORDS]);
    let state = start(&[1, 2, 3], &[1, 2, 3], 4, &mut store, &mut clauses)?;
    let state = encode_ub_change(state, &mut store, &mut clauses, &mut work, 2, 4)?;
    println!("{} clauses, {} fresh variables", state.clauses, state.variables);
    for clause in clauses[..state.words].split_inclusive(|&word| word == 0) {
        println!("{clause:?}");
    }
    for bound in 1..=6 {
        let mut scratch = [0; ANSWER_WORDS];
        match enforce_ub(state, &store, &clauses, &mut scratch, bound) {
            Ok(answer) => println!("at most {bound}: assume {answer:?}"),
            Err(Refused(number)) => println!("at most {bound}: refusal {number}"),
        }
    }
    Ok(())
}
