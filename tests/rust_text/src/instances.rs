//! Who hands out fresh variables.
use crate::types::Var;

pub trait ManageVars {
    fn new_var(&mut self) -> Var;
    fn n_used(&self) -> u32;
}
