//! Solvers on a register, lane by lane: if no lane's script is satisfiable, the register is equal at every start.
use std::collections::BTreeMap;
use std::io::{self, IsTerminal, Write};
use std::sync::atomic::{AtomicBool, AtomicU32, Ordering};
use std::sync::{Mutex, MutexGuard};
use std::thread;

use neon_terms::Registers;

use crate::answer::Answer;
use crate::pair::{Lane, Pair, Question, Register};
use crate::runs;
use crate::show::held;
use crate::solver::{self, Reply, Solver, Why};
use crate::stages::Settings;
use crate::verdict::Difference;

/// What was learnt so far.
#[derive(Default)]
struct Learnt {
    /// The lanes that a solver said are equal, and which solver.
    unsat: BTreeMap<u32, Solver>,
    /// For how many lanes a solver decided nothing.
    nothing: BTreeMap<(Solver, Why), u32>,
    left: Vec<u32>,
    found: Option<Difference>,
}

struct Work<'a> {
    pair: &'a Pair<'a>,
    register: Register,
    question: Question,
    lane: Lane,
    solvers: Vec<Solver>,
    seconds: u64,
    /// The registers that matter.
    asked: Vec<u8>,
    next: AtomicU32,
    /// A difference was found: nothing more is wanted.
    stop: AtomicBool,
    learnt: Mutex<Learnt>,
}

pub fn ask(pair: &Pair, register: Register, settings: &Settings) -> Answer {
    let question = match pair.question(register) {
        Ok(question) => question,
        Err(refusal) => return Answer::Left(format!("the pools of both routines do not fit in one: {} ({refusal})", refusal.number.code())),
    };
    let (solvers, absent): (Vec<Solver>, Vec<Solver>) = settings.solvers.iter().partition(|solver| solver.is_there());
    let learnt = Learnt { nothing: absent.into_iter().map(|solver| ((solver, Why::NotThere), 0)).collect(), ..Learnt::default() };
    // a solver is one process that computes
    let processors = thread::available_parallelism().map_or(2, |count| count.get());
    let workers = (processors / solvers.len().max(1)).max(2);
    let work = Work {
        pair,
        register,
        question,
        lane: settings.lane.unwrap_or_else(|| pair.lane(register)),
        solvers,
        seconds: settings.seconds,
        asked: pair.reads(register),
        next: AtomicU32::new(0),
        stop: AtomicBool::new(false),
        learnt: Mutex::new(learnt),
    };
    thread::scope(|scope| {
        for _ in 0..workers {
            scope.spawn(|| work.run());
        }
    });
    work.answer()
}

impl Work<'_> {
    /// One or more: no lane has more bits than half a register.
    fn lanes(&self) -> u32 {
        self.register.bits() / self.lane.bits()
    }

    fn learnt(&self) -> MutexGuard<'_, Learnt> {
        self.learnt.lock().expect("no thread panics while it holds what was learnt")
    }

    /// Takes one lane after the other, until there is none left or a difference is found.
    fn run(&self) {
        loop {
            let lane = self.next.fetch_add(1, Ordering::Relaxed);
            if lane >= self.lanes() || self.stop.load(Ordering::Relaxed) {
                break;
            }
            let decided = self.lane(lane);
            let mut learnt = self.learnt();
            learnt.left.extend((!decided).then_some(lane));
            progress(&format!("{}: {} of {} lanes", self.register, learnt.left.len() + learnt.unsat.len(), self.lanes()));
        }
    }

    /// Whether a solver's word was taken for a lane.
    fn lane(&self, lane: u32) -> bool {
        let (lo, hi) = (self.lane.bits() * lane, self.lane.bits() * (lane + 1) - 1);
        let Question { pool, old, new } = &self.question;
        let script = pool.lane_script(*old, *new, hi.into(), lo.into()).expect("the pool has the two terms");
        let question = script + &solver::get_value(&self.asked);
        let mut decided = false;
        solver::ask(question, &self.solvers, &self.asked, self.seconds, &self.stop, |solver, reply| {
            decided = match reply {
                Reply::Unsat => {
                    self.learnt().unsat.insert(lane, solver);
                    true
                }
                Reply::Sat(start) => self.replay(solver, lane, &start),
                Reply::Nothing(why) => self.nothing(solver, why),
            };
            decided
        });
        decided
    }

    fn nothing(&self, solver: Solver, why: Why) -> bool {
        *self.learnt().nothing.entry((solver, why)).or_default() += 1;
        false
    }

    /// Runs both routines on a solver's model. The runs decide; a model at which they agree counts for nothing.
    fn replay(&self, solver: Solver, lane: u32, start: &Registers) -> bool {
        let Some(difference) = runs::difference(self.pair, self.register, start) else {
            let (name, register, start) = (solver.name(), self.register, held(start, &self.asked));
            progress("");
            eprintln!("neon-equal: WARNING: {name} says that lane {lane} of {register} differs at {start}; the runs agree there. Its answer is not counted.");
            return self.nothing(solver, Why::Wrong);
        };
        self.stop.store(true, Ordering::Relaxed);
        self.learnt().found = Some(difference);
        true
    }

    fn answer(self) -> Answer {
        progress("");
        let lanes = self.lanes();
        let Learnt { unsat, nothing, mut left, found } = self.learnt.into_inner().expect("no thread panics while it holds what was learnt");
        if let Some(difference) = found {
            return Answer::Differs(Box::new(difference));
        }
        if (0..lanes).all(|lane| unsat.contains_key(&lane)) {
            let taken = |solver: Solver| unsat.values().filter(|&&other| other == solver).count();
            let by = self.solvers.iter().filter(|&&solver| taken(solver) > 0).map(|&solver| format!("{} ({} of {lanes} lanes)", solver.name(), taken(solver)));
            return Answer::Unsat(by.collect::<Vec<_>>().join(" and "));
        }
        left.sort_unstable();
        let why = nothing.iter().map(|((solver, why), count)| match count {
            0 => format!("{} {}", solver.name(), why.text()),
            _ => format!("{} {} for {count}", solver.name(), why.text()),
        });
        let why: Vec<String> = if self.solvers.is_empty() { vec!["no solver was asked".to_string()] } else { why.collect() };
        Answer::Left(format!("left are {} of {lanes} lanes of {} bits: {}; {}", left.len(), self.lane.bits(), ranges(&left), why.join(", ")))
    }
}

/// Lanes in order, a row of them by its ends: `0, 3-7`.
fn ranges(lanes: &[u32]) -> String {
    let ends = lanes.chunk_by(|a, b| a + 1 == *b).map(|row| match row {
        [one] => one.to_string(),
        _ => format!("{}-{}", row[0], row[row.len() - 1]),
    });
    ends.collect::<Vec<_>>().join(", ")
}

/// How far it is, for a person at a terminal: one line on standard error, which the next replaces.
fn progress(text: &str) {
    let mut error = io::stderr().lock();
    if error.is_terminal() {
        // the answer does not depend on it
        let _ = write!(error, "\r\x1b[K{text}").and_then(|()| error.flush());
    }
}

#[cfg(test)]
mod tests {
    use super::*;

    #[test]
    fn rows_of_lanes() {
        assert_eq!(ranges(&[]), "");
        assert_eq!(ranges(&[0, 3, 4, 5, 7, 8]), "0, 3-5, 7-8");
    }
}
