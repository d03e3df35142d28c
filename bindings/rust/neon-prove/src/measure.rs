//! One register by each way of deciding, for measurements: times of folding and of the search, and the question in the formats of other programs.
use std::time::Instant;

use neon_terms::{Record, Workspace};

use crate::args::EFFORT;
use crate::certificate::{aiger, clauses};
use crate::pair::{Pair, Places, Question, Register, Routine};
use crate::search::{Found, Limits, search};

/// What was measured, in seconds.
pub struct Measured {
    pub gates: usize,
    /// Whether the literal is 0, and the time of the call with an empty refutation.
    pub folds: bool,
    pub folding: f64,
    /// The steps of an accepted refutation, and the time of search and check.
    pub steps: Option<usize>,
    pub sweeping: f64,
    pub lanes: Vec<String>,
    pub cnf: String,
    pub aiger: Vec<u8>,
}

fn timed<T>(work: impl FnOnce() -> T) -> (T, f64) {
    let begun = Instant::now();
    (work(), begun.elapsed().as_secs_f64())
}

/// None where the register is one tree, or a routine is refused.
pub fn measured(old: Vec<Record>, new: Vec<Record>, register: u8, half: bool, seconds: u64) -> Option<Measured> {
    let old = Routine::new(String::new(), false, Places::Lines, old).ok()?;
    let new = Routine::new(String::new(), false, Places::Lines, new).ok()?;
    let (pair, register) = (Pair { old: &old, new: &new }, Register { number: register, half });
    let asked = pair.asked(register).ok().filter(|_| !pair.same(register))?;
    let mut space = Workspace::default();
    // once before, so that memory is there
    let _ = asked.equal(&mut space, &[]);
    let (folds, folding) = timed(|| asked.equal(&mut space, &[]).is_ok());
    let question = asked.question(&mut space).ok()?;
    let (gates, literal) = (question.gates.to_vec(), question.literal);
    let begun = Instant::now();
    let over = || begun.elapsed().as_secs() >= seconds;
    let limits = Limits { conflicts: EFFORT, visits: u64::MAX, words: 1 << 29, stop: &over };
    let (steps, sweeping) = timed(|| match if folds { Found::Nothing("folds") } else { search(&gates, literal, &limits, &mut |_| {}).0 } {
        Found::Refutation(words, steps) => asked.equal(&mut space, &words).ok().map(|()| steps),
        _ => None,
    });
    let bits = pair.lane(register).bits();
    let scripts = |Question { pool, old, new }: Question| {
        (0..register.bits() / bits).filter_map(|lane| pool.lane_script(old, new, (bits * (lane + 1) - 1).into(), (bits * lane).into()).ok()).collect()
    };
    let lanes = pair.question(register).map(scripts).unwrap_or_default();
    let (cnf, _) = clauses::files(&gates, literal, &[]);
    Some(Measured { gates: gates.len(), folds, folding, steps, sweeping, lanes, cnf, aiger: aiger::file(&gates, literal) })
}
