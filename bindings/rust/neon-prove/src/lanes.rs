//! Solvers on a register, lane by lane: if no lane's script is satisfiable, the register is equal at every start.
use std::collections::BTreeMap;
use std::sync::atomic::{AtomicBool, AtomicU32, Ordering};
use std::sync::{Mutex, MutexGuard};
use std::thread;
use std::time::Duration;

use neon_terms::Registers;

use crate::answer::Answer;
use crate::pair::{Lane, Pair, Question, Register};
use crate::progress;
use crate::runs;
use crate::show::held;
use crate::solver::{self, Reply, Solver, Why};
use crate::stages::{self, Trust};
use crate::verdict::Difference;

/// The time that a question has if there is no limit for all.
const USUAL: Duration = Duration::from_secs(10);

/// What was learnt so far.
#[derive(Default)]
struct Learnt {
    /// The lanes that are believed to be equal, and the solver that was the first to say so.
    unsat: BTreeMap<u32, Solver>,
    /// For how many lanes a solver decided nothing.
    nothing: BTreeMap<(Solver, Why), u32>,
    left: Vec<u32>,
    found: Option<Difference>,
}

struct Asking<'a> {
    pair: &'a Pair<'a>,
    register: Register,
    question: Question,
    lane: Lane,
    work: &'a stages::Work<'a>,
    /// The registers that matter.
    asked: Vec<u8>,
    next: AtomicU32,
    /// A difference was found: nothing more is wanted.
    stop: AtomicBool,
    learnt: Mutex<Learnt>,
}

pub fn ask(pair: &Pair, register: Register, work: &stages::Work) -> Answer {
    let question = match pair.question(register) {
        Ok(question) => question,
        Err(refusal) => return Answer::Left(format!("the pools of both routines do not fit in one: {} ({refusal})", refusal.number.code())),
    };
    // a solver is one process that computes
    let processors = thread::available_parallelism().map_or(2, |count| count.get());
    let workers = (processors / work.settings.solvers.len().max(1)).max(2);
    let asking = Asking {
        pair,
        register,
        question,
        lane: work.settings.lane.unwrap_or_else(|| pair.lane(register)),
        work,
        asked: pair.reads(register),
        next: AtomicU32::new(0),
        stop: AtomicBool::new(false),
        learnt: Mutex::default(),
    };
    thread::scope(|scope| {
        for _ in 0..workers {
            scope.spawn(|| asking.run());
        }
    });
    asking.answer()
}

impl Asking<'_> {
    /// One or more: no lane has more bits than half a register.
    fn lanes(&self) -> u32 {
        self.register.bits() / self.lane.bits()
    }

    fn learnt(&self) -> MutexGuard<'_, Learnt> {
        self.learnt.lock().expect("no thread panics while it holds what was learnt")
    }

    /// Takes one lane after the other, until there is none left or a difference is found.
    fn run(&self) {
        loop {
            let lane = self.next.fetch_add(1, Ordering::Relaxed);
            if lane >= self.lanes() || self.stop.load(Ordering::Relaxed) {
                break;
            }
            let decided = self.work.over().is_none() && self.lane(lane);
            let mut learnt = self.learnt();
            learnt.left.extend((!decided).then_some(lane));
            let asked = learnt.left.len() + learnt.unsat.len();
            progress::show(&format!("{}: {asked} of {} lanes asked of solvers", self.register, self.lanes()));
        }
    }

    /// Whether the word of a solver, or of all of them, was taken for a lane.
    fn lane(&self, lane: u32) -> bool {
        let (lo, hi) = (self.lane.bits() * lane, self.lane.bits() * (lane + 1) - 1);
        let Question { pool, old, new } = &self.question;
        let script = pool.lane_script(*old, *new, hi.into(), lo.into()).expect("the pool has the two terms");
        let settings = self.work.settings;
        let (mut decided, mut unsat) = (false, Vec::new());
        solver::ask(&script, &settings.solvers, &self.asked, self.work.left(USUAL), &self.stop, |solver, reply| {
            decided = match reply {
                Reply::Unsat if settings.trust == Trust::Proofs => self.nothing(solver, Why::NotBelieved),
                Reply::Unsat => {
                    unsat.push(solver);
                    !settings.agree || unsat.len() == settings.solvers.len()
                }
                Reply::Sat(start) => self.replay(solver, lane, &start, &unsat),
                Reply::Nothing(why) => self.nothing(solver, why),
            };
            decided
        });
        if decided {
            self.learnt().unsat.extend(unsat.first().map(|&solver| (lane, solver)));
        } else {
            unsat.into_iter().for_each(|solver| _ = self.nothing(solver, Why::Alone));
        }
        decided
    }

    fn nothing(&self, solver: Solver, why: Why) -> bool {
        *self.learnt().nothing.entry((solver, why)).or_default() += 1;
        false
    }

    /// Runs both routines on a solver's model. The runs decide; a model at which they agree counts for nothing. Solvers that said equal are named.
    fn replay(&self, solver: Solver, lane: u32, start: &Registers, unsat: &[Solver]) -> bool {
        let (name, register, shown) = (solver.name(), self.register, held(start, &self.asked));
        let warn = |text: String| {
            progress::show("");
            eprintln!("neon-prove: WARNING: {text}");
        };
        let difference = runs::difference(self.pair, self.register, start);
        for other in unsat {
            let differ = if difference.is_some() { "the runs differ" } else { "the runs agree" };
            warn(format!("{} says that lane {lane} of {register} is equal, {name} that it differs at {shown}; {differ} there", other.name()));
        }
        let Some(difference) = difference else {
            warn(format!("{name} says that lane {lane} of {register} differs at {shown}; the runs agree there. Its answer is not counted."));
            return self.nothing(solver, Why::Wrong);
        };
        self.stop.store(true, Ordering::Relaxed);
        self.learnt().found = Some(difference);
        true
    }

    fn answer(self) -> Answer {
        progress::show("");
        let lanes = self.lanes();
        let settings = self.work.settings;
        let Learnt { unsat, nothing, mut left, found } = self.learnt.into_inner().expect("no thread panics while it holds what was learnt");
        if let Some(difference) = found {
            return Answer::Differs(Box::new(difference));
        }
        if (0..lanes).all(|lane| unsat.contains_key(&lane)) {
            return Answer::Believed(believed(&unsat, &settings.solvers, settings.agree));
        }
        left.sort_unstable();
        let why: Vec<String> = nothing.iter().map(|((solver, why), count)| format!("{} {} for {count}", solver.name(), why.text())).collect();
        let over = self.work.over().unwrap_or_default();
        let why = if why.is_empty() { over.to_string() } else { why.join(", ") };
        Answer::Left(format!("left are {} of {lanes} lanes of {} bits: {}; {why}", left.len(), self.lane.bits(), ranges(&left)))
    }
}

/// The solvers whose word was taken, with the number of lanes if there are several.
fn believed(unsat: &BTreeMap<u32, Solver>, solvers: &[Solver], agree: bool) -> String {
    let taken = |solver: Solver| unsat.values().filter(|&&other| other == solver).count();
    let all: Vec<Solver> = solvers.iter().copied().filter(|&solver| agree || taken(solver) > 0).collect();
    let name = |&solver: &Solver| match (all.len(), agree) {
        (1, _) | (_, true) => solver.name().to_string(),
        _ => format!("{} ({} of {} lanes)", solver.name(), taken(solver), unsat.len()),
    };
    all.iter().map(name).collect::<Vec<_>>().join(" and ")
}

/// Lanes in order, a row of them by its ends: `0, 3-7`.
fn ranges(lanes: &[u32]) -> String {
    let ends = lanes.chunk_by(|a, b| a + 1 == *b).map(|row| match row {
        [one] => one.to_string(),
        _ => format!("{}-{}", row[0], row[row.len() - 1]),
    });
    ends.collect::<Vec<_>>().join(", ")
}

#[cfg(test)]
mod tests {
    use super::*;

    #[test]
    fn rows_of_lanes() {
        assert_eq!(ranges(&[]), "");
        assert_eq!(ranges(&[0, 3, 4, 5, 7, 8]), "0, 3-5, 7-8");
    }
}
