//! Literals, variables and clauses, as far as the text asks for them.
use std::collections::HashMap;
use std::fmt;
use std::ops::{Neg, Not};

pub type RsHashMap<K, V> = HashMap<K, V>;
pub type Clause = Vec<Lit>;

#[derive(Clone, Copy, PartialEq, Eq, Hash, PartialOrd, Ord)]
pub struct Lit(pub i32);

impl fmt::Debug for Lit {
    fn fmt(&self, f: &mut fmt::Formatter<'_>) -> fmt::Result {
        write!(f, "{}", self.0)
    }
}

impl Not for Lit {
    type Output = Lit;
    fn not(self) -> Lit {
        Lit(-self.0)
    }
}

impl Neg for Lit {
    type Output = Lit;
    fn neg(self) -> Lit {
        Lit(-self.0)
    }
}

pub struct Var(pub i32);

impl Var {
    pub fn pos_lit(self) -> Lit {
        Lit(self.0)
    }
}

#[macro_export]
macro_rules! lit {
    ($n:expr) => {
        $crate::types::Lit($n + 1)
    };
}

#[macro_export]
macro_rules! clause {
    ($($lit:expr),*) => {
        vec![$($lit),*]
    };
}
