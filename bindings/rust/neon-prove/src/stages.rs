//! The stages that decide registers, the cheapest first: canonical pools, runs, folding, a search for refutations, solvers if any are named.
use std::time::{Duration, Instant};

use crate::answer::{Answer, Proof};
use crate::pair::{Lane, Pair, Register};
use crate::solver::Solver;
use crate::{gates, interrupt, lanes, runs};

/// Whether an answer may rest on a solver's word.
#[derive(Debug, Clone, Copy, PartialEq, Eq)]
pub enum Trust {
    Proofs,
    Solvers,
}

/// What the stages may spend, and on what.
#[derive(Debug, Clone)]
pub struct Settings {
    /// The bits that a solver is asked about at a time; None for a lane of the last instructions.
    pub lane: Option<Lane>,
    /// For all of a pair; None for no limit.
    pub seconds: Option<u64>,
    /// Conflicts of a search that come to nothing.
    pub effort: u64,
    /// Megabytes for a register.
    pub memory: u64,
    pub trust: Trust,
    pub solvers: Vec<Solver>,
    /// Whether all solvers have to agree.
    pub agree: bool,
    /// Starts of runs; None for as many as the routines' length suggests.
    pub starts: Option<usize>,
}

/// Settings, and when the time is over.
pub struct Work<'w> {
    pub settings: &'w Settings,
    end: Option<Instant>,
}

#[cfg(test)]
impl Settings {
    /// No solver, and so many conflicts.
    pub fn of_effort(effort: u64) -> Self {
        Self { lane: None, seconds: None, effort, memory: 1024, trust: Trust::Proofs, solvers: Vec::new(), agree: false, starts: None }
    }
}

impl<'w> Work<'w> {
    pub fn new(settings: &'w Settings) -> Self {
        Self { settings, end: settings.seconds.map(|seconds| Instant::now() + Duration::from_secs(seconds)) }
    }

    /// Why nothing more is done.
    pub fn over(&self) -> Option<&'static str> {
        if interrupt::interrupted() {
            return Some("interrupted");
        }
        self.end.filter(|end| Instant::now() >= *end).map(|_| "the time is over (--seconds)")
    }

    /// The time that is left, or what a question has without a limit.
    pub fn left(&self, usual: Duration) -> Duration {
        self.end.map_or(usual, |end| end.saturating_duration_since(Instant::now()))
    }
}

/// A register that is not decided, and what the stages say of it.
struct Open {
    register: Register,
    why: Vec<String>,
}

type Tell<'t> = dyn FnMut(Register, Answer) + 't;

/// A stage is given the registers that are left, tells what it knows of some, and gives back the others.
type Stage = fn(&Pair, Vec<Open>, &Work, &mut Tell) -> Vec<Open>;

const STAGES: [Stage; 5] = [by_canonical_pools, by_runs, by_folding, by_refutations, by_solvers];

fn by_canonical_pools(pair: &Pair, left: Vec<Open>, _: &Work, tell: &mut Tell) -> Vec<Open> {
    let same = |open: Open| if pair.same(open.register) { note(open, Answer::Proved(Proof::CanonicalPools), tell) } else { Some(open) };
    left.into_iter().filter_map(same).collect()
}

fn by_runs(pair: &Pair, left: Vec<Open>, work: &Work, tell: &mut Tell) -> Vec<Open> {
    let starts = work.settings.starts.unwrap_or_else(|| runs::starts(pair));
    let registers = left.iter().map(|open| open.register).collect();
    let over = || work.over().is_some();
    let equal = runs::search(pair, registers, starts, &over, |register, difference| tell(register, Answer::Differs(Box::new(difference))));
    left.into_iter().filter(|open| equal.contains(&open.register)).collect()
}

/// Tells of a register, or notes why nothing is known.
fn note(mut open: Open, answer: Answer, tell: &mut Tell) -> Option<Open> {
    let Answer::Left(why) = answer else {
        tell(open.register, answer);
        return None;
    };
    open.why.push(why);
    Some(open)
}

fn by_folding(pair: &Pair, left: Vec<Open>, work: &Work, tell: &mut Tell) -> Vec<Open> {
    let fold = |open: Open| match work.over().map_or_else(|| gates::folds(pair, open.register, work), |over| Err(over.to_string())) {
        Ok(true) => note(open, Answer::Proved(Proof::Folding), tell),
        Ok(false) => Some(open),
        Err(why) => note(open, Answer::Left(why), tell),
    };
    left.into_iter().filter_map(fold).collect()
}

fn by_refutations(pair: &Pair, left: Vec<Open>, work: &Work, tell: &mut Tell) -> Vec<Open> {
    let search = |open: Open| match (open.why.is_empty(), work.over()) {
        (false, _) => Some(open),
        (true, Some(over)) => note(open, Answer::Left(over.to_string()), tell),
        (true, None) => {
            let answer = gates::refute(pair, open.register, work);
            note(open, answer, tell)
        }
    };
    left.into_iter().filter_map(search).collect()
}

fn by_solvers(pair: &Pair, left: Vec<Open>, work: &Work, tell: &mut Tell) -> Vec<Open> {
    if work.settings.solvers.is_empty() {
        return left;
    }
    let ask = |open: Open| match work.over() {
        Some(_) => Some(open),
        None => {
            let answer = lanes::ask(pair, open.register, work);
            note(open, answer, tell)
        }
    };
    left.into_iter().filter_map(ask).collect()
}

/// Pairs, each with the registers that count, go through the stages together. Each register is told of once: what no stage decides is left.
pub fn decide(asked: &[(Pair, Vec<Register>)], settings: &Settings, mut tell: impl FnMut(usize, Register, Answer)) {
    let work = Work::new(settings);
    let open = |&register: &Register| Open { register, why: Vec::new() };
    let mut left: Vec<Vec<Open>> = asked.iter().map(|(_, registers)| registers.iter().map(open).collect()).collect();
    for stage in STAGES {
        for (k, (pair, _)) in asked.iter().enumerate() {
            left[k] = stage(pair, std::mem::take(&mut left[k]), &work, &mut |register, answer| tell(k, register, answer));
        }
    }
    for (k, registers) in left.into_iter().enumerate() {
        registers.into_iter().for_each(|open| tell(k, open.register, Answer::Left(open.why.join("; "))));
    }
}
