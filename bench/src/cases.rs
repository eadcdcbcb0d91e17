//! The inputs that both sides get.

pub const KINDS: [&str; 4] = ["equal", "to 100", "powers to 1024", "to 1048575"];

pub struct Case {
    pub kind: &'static str,
    pub range: &'static str,
    pub lits: Vec<i32>,
    pub weights: Vec<u64>,
    pub first: u32,
    pub lo: u64,
    pub end: u64,
}

/// Numbers from a seed, each below the bound (a linear congruence; its upper half).
struct Numbers(u64);

impl Numbers {
    fn below(&mut self, bound: u64) -> u64 {
        self.0 = self.0.wrapping_mul(6364136223846793005).wrapping_add(1442695040888963407);
        (self.0 >> 33) % bound
    }
}

fn weights(kind: &str, count: usize) -> Vec<u64> {
    let mut numbers = Numbers(count as u64);
    (0..count)
        .map(|_| match kind {
            "equal" => 1,
            "to 100" => 1 + numbers.below(100),
            "powers to 1024" => 1 << numbers.below(11),
            _ => 1 + numbers.below(1_048_575),
        })
        .collect()
}

impl Case {
    fn new(kind: &'static str, count: usize, range: &'static str) -> Self {
        let weights = weights(kind, count);
        let sum: u64 = weights.iter().sum();
        let (lo, end) = match range {
            "one bound" => (sum / 2, sum / 2 + 1),
            "a tenth" => (sum / 2, sum / 2 + (sum / 10).max(1)),
            _ => (0, sum),
        };
        Case { kind, range, lits: (1..=count as i32).collect(), weights, first: count as u32 + 1, lo, end }
    }

    /// A divisor to start from: the largest power of two at most the square root of the largest weight.
    pub fn coarse_divisor(&self) -> u64 {
        let largest = *self.weights.iter().max().unwrap_or(&1);
        1 << ((63 - largest.leading_zeros()) / 2)
    }
}

/// Each count of inputs with each kind of weights over each of these ranges.
pub fn cases<'a>(counts: &'a [usize], ranges: &'a [&'static str]) -> impl Iterator<Item = Case> + 'a {
    counts.iter().flat_map(move |&count| {
        KINDS.iter().flat_map(move |&kind| ranges.iter().map(move |&range| Case::new(kind, count, range)))
    })
}
