//! What is asked of a register, for gates and certificates.
use neon_terms::{Node, Pool, Refusal};

use crate::pair::{Pair, Register, Routine};

impl Register {
    /// By its name: v0 to v31, d0 to d31.
    pub fn named(name: &str) -> Option<Self> {
        let all = (0..32).flat_map(|number| [false, true].map(|half| Self { number, half }));
        all.into_iter().find(|register| register.to_string() == name)
    }
}

/// The two terms of a register, each in a pool that has nothing else, and the last bit that counts.
pub struct Asked {
    pub old: (Pool, Node),
    pub new: (Pool, Node),
    pub hi: usize,
}

impl Pair<'_> {
    /// What is asked of a register.
    pub fn asked(&self, register: Register) -> Result<Asked, Refusal> {
        let term = |routine: &Routine| routine.pool.canonical(routine.node(register));
        Ok(Asked { old: term(self.old)?, new: term(self.new)?, hi: register.bits() as usize - 1 })
    }
}
