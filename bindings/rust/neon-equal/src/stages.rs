//! The stages that decide registers, the cheapest first: canonical pools, runs, solvers.
use crate::answer::Answer;
use crate::pair::{Lane, Pair, Register};
use crate::solver::Solver;
use crate::{lanes, runs};

/// What the stages may spend, and on what.
#[derive(Debug, Clone)]
pub struct Settings {
    /// The bits that a solver is asked about at a time; None for a lane of the last instructions.
    pub lane: Option<Lane>,
    pub seconds: u64,
    pub solvers: Vec<Solver>,
    /// Starts of runs; None for as many as the routines' length suggests.
    pub starts: Option<usize>,
}

type Tell<'t> = dyn FnMut(Register, Answer) + 't;

/// A stage is given the registers that are left, tells what it knows of some, and gives back the others.
type Stage = fn(&Pair, Vec<Register>, &Settings, &mut Tell) -> Vec<Register>;

const STAGES: [Stage; 3] = [by_canonical_pools, by_runs, by_solvers];

fn by_canonical_pools(pair: &Pair, left: Vec<Register>, _: &Settings, tell: &mut Tell) -> Vec<Register> {
    let (same, left): (Vec<Register>, Vec<Register>) = left.iter().partition(|&&register| pair.same(register));
    same.into_iter().for_each(|register| tell(register, Answer::Same));
    left
}

fn by_runs(pair: &Pair, left: Vec<Register>, settings: &Settings, tell: &mut Tell) -> Vec<Register> {
    let starts = settings.starts.unwrap_or_else(|| runs::starts(pair));
    runs::search(pair, left, starts, &|| false, |register, difference| tell(register, Answer::Differs(Box::new(difference))))
}

fn by_solvers(pair: &Pair, left: Vec<Register>, settings: &Settings, tell: &mut Tell) -> Vec<Register> {
    left.into_iter().for_each(|register| tell(register, lanes::ask(pair, register, settings)));
    Vec::new()
}

/// Pairs, each with the registers that count, go through the stages together. Each register is told of once: what no stage decides is left.
pub fn decide(asked: &[(Pair, Vec<Register>)], settings: &Settings, mut tell: impl FnMut(usize, Register, Answer)) {
    let mut left: Vec<Vec<Register>> = asked.iter().map(|(_, registers)| registers.clone()).collect();
    for stage in STAGES {
        for (k, (pair, _)) in asked.iter().enumerate() {
            left[k] = stage(pair, std::mem::take(&mut left[k]), settings, &mut |register, answer| tell(k, register, answer));
        }
    }
    for (k, registers) in left.into_iter().enumerate() {
        registers.into_iter().for_each(|register| tell(k, register, Answer::Left("no stage decided it".to_string())));
    }
}
