//! Plays calls from standard input over the Rust's own text, an answer to a line; `run` feeds it.
//!
//!     new FIRST LITERAL WEIGHT ... | set D | next | max | encode LO END | enforce U | coarse U | clauses
//!
//! An enforce answers `ok`, the literals as they are, `|`, their roles: o and the root's value, t and a tare's power.
pub mod encodings;
pub mod instances;
pub mod types;
pub mod utils;

use encodings::pb::{dpw::DynamicPolyWatchdog, BoundUpper, BoundUpperIncremental};
use encodings::CollectClauses;
use instances::ManageVars;
use std::io::BufRead;
use types::{Clause, Lit, Var};

#[derive(Debug, PartialEq, Eq)]
pub enum OutOfMemory {
    ExternalApi,
}

struct Clauses(Vec<Clause>);

impl CollectClauses for Clauses {
    fn n_clauses(&self) -> usize {
        self.0.len()
    }

    fn extend_clauses<T: IntoIterator<Item = Clause>>(&mut self, clauses: T) -> Result<(), OutOfMemory> {
        self.0.extend(clauses);
        Ok(())
    }
}

struct Variables {
    first: i32,
    next: i32,
}

impl ManageVars for Variables {
    fn new_var(&mut self) -> Var {
        self.next += 1;
        Var(self.next - 1)
    }

    fn n_used(&self) -> u32 {
        (self.next - self.first) as u32
    }
}

/// The numbers of a list in what Debug prints of the encoding, whose fields are private.
fn listed(printed: &str, name: &str) -> Vec<i32> {
    let Some(at) = printed.find(name) else { return vec![] };
    let rest = &printed[at + name.len()..];
    rest[..rest.find(']').unwrap()].split(',').filter_map(|word| word.trim().parse().ok()).collect()
}

/// The values of the root's outputs, by the same print.
fn outputs(printed: &str, root: usize) -> Vec<Option<i32>> {
    let nodes = printed.split("nodes: [").nth(1).unwrap();
    let starts: Vec<usize> = ["Leaf(", "Unit(UnitNode", "Dummy"].iter().flat_map(|kind| nodes.match_indices(kind)).map(|m| m.0).collect();
    let mut starts = starts;
    starts.sort();
    let node = &nodes[starts[root]..starts.get(root + 1).copied().unwrap_or(nodes.len())];
    let Some(lits) = node.split("lits: [").nth(1) else { return vec![] };
    let lits = &lits[..lits.find(']').unwrap()];
    let words = lits.replace("Lit { lit: ", "+").replace("None", "-");
    let mut values = vec![];
    for word in words.split(',').map(str::trim) {
        match word.as_bytes().first() {
            Some(b'+') => values.push(word[1..].parse().ok()),
            Some(b'-') => values.push(None),
            _ => {}
        }
    }
    values
}

fn roles(encoding: &DynamicPolyWatchdog, answer: &[Lit]) -> String {
    let printed = format!("{encoding:?}");
    let tares = listed(&printed, "tares: [");
    let root = listed(&printed, "bottom_buckets: [").first().copied();
    let outputs = root.map(|root| outputs(&printed, root as usize)).unwrap_or_default();
    let role = |lit: &Lit| {
        if let Some(power) = tares.iter().position(|&tare| tare == lit.0) {
            return format!("t{power}");
        }
        match outputs.iter().position(|&output| output == Some(-lit.0)) {
            Some(place) => format!("o{}", place + 1),
            None => format!("i{}", lit.0),
        }
    };
    answer.iter().map(role).collect::<Vec<_>>().join(" ")
}

fn main() {
    let mut encoding = DynamicPolyWatchdog::default();
    let (mut clauses, mut variables) = (Clauses(vec![]), Variables { first: 1, next: 1 });
    for line in std::io::stdin().lock().lines().map(Result::unwrap) {
        let words: Vec<&str> = line.split_whitespace().collect();
        let numbers: Vec<i64> = words[1..].iter().map(|word| word.parse().unwrap()).collect();
        match words[0] {
            "new" => {
                let first = numbers[0] as i32;
                encoding = numbers[1..].chunks(2).map(|pair| (Lit(pair[0] as i32), pair[1] as usize)).collect();
                (clauses, variables) = (Clauses(vec![]), Variables { first, next: first });
                println!("ok");
            }
            "set" => println!("{:?}", encoding.set_precision(numbers[0] as usize)),
            "next" => println!("{}", encoding.next_precision()),
            "max" => println!("{}", encoding.is_max_precision()),
            "encode" => {
                let range = numbers[0] as usize..numbers[1] as usize;
                encoding.encode_ub_change(range, &mut clauses, &mut variables).unwrap();
                println!("{} {}", clauses.0.len(), variables.n_used());
            }
            "enforce" => match encoding.enforce_ub(numbers[0] as usize) {
                Ok(answer) => {
                    let lits: Vec<String> = answer.iter().map(|lit| lit.0.to_string()).collect();
                    println!("ok {} | {}", lits.join(" "), roles(&encoding, &answer));
                }
                Err(_) => println!("11"),
            },
            "coarse" => println!("{}", encoding.coarse_ub(numbers[0] as usize)),
            "clauses" => println!("{:?}", clauses.0),
            other => panic!("no call {other}"),
        }
    }
}
