//! A floor planned with a real solver: five volumes, at least three of which must stand, under lighter and lighter bounds.
//! One of Debian's picosat, cadical and cryptominisat is asked, the first that is there.
use std::io::Write;
use std::process::{exit, Command, Stdio};
use tweedpillar::{encode_ub_change, enforce_ub, start, Refused, ANSWER_WORDS, RECORD_WORDS, WORK_WORDS};

const WEIGHTS: [u64; 5] = [9, 15, 22, 31, 6];
const VOLUMES: [i32; 5] = [1, 2, 3, 4, 5];
const SOLVERS: [&str; 3] = ["picosat", "cadical", "cryptominisat5"];

/// Words of clauses, each closed by 0, so that of any three volumes one stands: three stand in all.
fn three_stand() -> Vec<i32> {
    let mut words = vec![];
    for a in 1..=5 {
        for b in a + 1..=5 {
            for c in b + 1..=5 {
                words.extend([a, b, c, 0]);
            }
        }
    }
    words
}

fn refuse(why: &str) -> ! {
    eprintln!("floor: {why}");
    exit(2)
}

/// What the first solver that is there prints on this text.
fn asked(text: &str) -> String {
    for solver in SOLVERS {
        let started = Command::new(solver).stdin(Stdio::piped()).stdout(Stdio::piped()).stderr(Stdio::null()).spawn();
        let Ok(mut child) = started else { continue };
        child.stdin.take().unwrap().write_all(text.as_bytes()).unwrap();
        let run = child.wait_with_output().unwrap();
        if !matches!(run.status.code(), Some(10 | 20)) {
            refuse(&format!("{solver} ended with {}", run.status));
        }
        return String::from_utf8_lossy(&run.stdout).into_owned();
    }
    refuse("no solver is there: apt-get install picosat")
}

/// The volumes that stand in a model of these clause words, or none where there is no model.
fn solved(words: &[i32], variables: u32) -> Option<Vec<i32>> {
    let clauses = words.iter().filter(|&&word| word == 0).count();
    let listed: Vec<String> = words.iter().map(i32::to_string).collect();
    let printed = asked(&format!("p cnf {variables} {clauses}\n{}\n", listed.join(" ").replace(" 0 ", " 0\n")));
    if printed.contains("s UNSATISFIABLE") {
        return None;
    }
    let model = printed.lines().filter(|line| line.starts_with('v')).flat_map(|line| line[1..].split_whitespace());
    let literals: Vec<i32> = model.filter_map(|word| word.parse().ok()).collect();
    Some(VOLUMES.into_iter().filter(|volume| literals.contains(volume)).collect())
}

fn main() -> Result<(), Refused> {
    let (mut store, mut clauses, mut work) = (vec![0; RECORD_WORDS * 200], vec![0; 2000], vec![0; WORK_WORDS]);
    let state = start(&VOLUMES, &WEIGHTS, 6, &mut store, &mut clauses)?;
    let state = encode_ub_change(state, &mut store, &mut clauses, &mut work, 0, WEIGHTS.iter().sum())?;
    for bound in [60, 40, 30, 29] {
        let mut scratch = [0; ANSWER_WORDS];
        let answer = enforce_ub(state, &store, &clauses, &mut scratch, bound)?;
        let assumed: Vec<i32> = answer.iter().flat_map(|&literal| [literal, 0]).collect();
        match solved(&[&three_stand()[..], &clauses[..state.words], &assumed].concat(), state.fresh - 1) {
            None => println!("at most {bound}: no three of them stand"),
            Some(chosen) => {
                let weight: u64 = chosen.iter().map(|&volume| WEIGHTS[volume as usize - 1]).sum();
                println!("at most {bound}: volumes {chosen:?} stand and weigh {weight}");
            }
        }
    }
    Ok(())
}
