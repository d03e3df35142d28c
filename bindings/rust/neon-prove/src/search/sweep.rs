//! Sweeping: gates that no run tells apart are shown to be equal, from the inputs on, by small questions, and each is then used for the next.
//! The steps of all questions are one refutation.
use std::collections::BinaryHeap;

use super::cone::{Cone, Literal, variable};
use super::sat::{Answer, Solver};
use super::simulate::Classes;
use super::steps::ASSUMPTION;

/// Variables of the looks at a question, one after the other. The last is for the goal alone.
const WINDOWS: [usize; 4] = [40, 400, 2000, usize::MAX];

/// Conflicts for a question about two inner gates, by the quarters of the limit that are spent in vain: hard questions do not keep sweeping from easy ones.
const INSIDE: [u64; 4] = [60, 20, 8, 3];

/// What the search may spend.
pub struct Limits<'l> {
    /// Conflicts of questions that come to nothing.
    pub conflicts: u64,
    /// Gates that may be looked at, counted each time.
    pub visits: u64,
    /// Words of the steps.
    pub words: usize,
    /// The time is over, or there was an interrupt.
    pub stop: &'l dyn Fn() -> bool,
}

/// How far it is.
#[derive(Debug, Default, Clone, Copy)]
pub struct Sweeping {
    pub gates: usize,
    pub done: usize,
    pub conflicts: u64,
    /// Gates that were shown to be equal to earlier ones.
    pub merged: u32,
}

pub enum Found {
    /// The words of a refutation, and its steps.
    Refutation(Vec<u32>, usize),
    /// Variables of the graph that are true where the goal is true; all other bits of registers are false.
    Start(Vec<u32>),
    /// Nothing, for want of what.
    Nothing(&'static str),
}

struct Sweep<'c, 'l> {
    cone: &'c Cone,
    solver: Solver<'c>,
    classes: Classes<'c>,
    /// The literal that each variable was shown to be equal to; itself at first.
    equal: Vec<Literal>,
    limits: &'l Limits<'l>,
    stamps: Vec<u32>,
    stamp: u32,
    visits: u64,
    /// Conflicts of questions that came to nothing.
    vain: u64,
    state: Sweeping,
}

/// Looks for a refutation of a literal, or for a start at which it is true.
pub fn search(gates: &[u64], goal: Literal, limits: &Limits, tell: &mut dyn FnMut(Sweeping)) -> (Found, Sweeping) {
    let cone = Cone::of(gates, goal);
    let count = cone.len();
    let mut sweep = Sweep {
        solver: Solver::new(&cone),
        classes: Classes::new(&cone),
        equal: (0..count as u32).map(|v| 2 * v).collect(),
        limits,
        stamps: vec![0; count],
        stamp: 0,
        visits: 0,
        vain: 0,
        state: Sweeping { gates: count, ..Sweeping::default() },
        cone: &cone,
    };
    sweep.sweep(tell);
    let found = sweep.finish();
    (found, sweep.state)
}

impl Sweep<'_, '_> {
    /// What there is no more of.
    fn spent(&self) -> Option<&'static str> {
        let Limits { conflicts, visits, words, stop } = *self.limits;
        if self.vain >= conflicts {
            Some("conflicts")
        } else if self.visits + self.solver.propagations >= visits {
            Some("gates")
        } else if self.solver.steps.words() >= words {
            Some("memory")
        } else {
            stop().then_some("time")
        }
    }

    /// From the inputs on, up to the goal.
    fn sweep(&mut self, tell: &mut dyn FnMut(Sweeping)) {
        if self.spent().is_some() {
            return;
        }
        for v in 1..self.cone.len() - 1 {
            if self.cone.operands(v).is_none() {
                continue;
            }
            self.merge(v as u32);
            (self.state.done, self.state.conflicts) = (v, self.solver.conflicts);
            if v % 256 == 0 {
                tell(self.state);
            }
            if v % 16 == 0 && self.spent().is_some() {
                break;
            }
        }
        tell(self.state);
    }

    /// The goal itself, with the conflicts that are left.
    fn finish(&mut self) -> Found {
        if let Some(what) = self.spent() {
            return Found::Nothing(what);
        }
        let answer = self.ask(&[self.cone.goal], self.limits.conflicts - self.vain);
        self.state.conflicts = self.solver.conflicts;
        match answer {
            Answer::Unsat(hint) => {
                self.solver.steps.push([].into_iter(), &[ASSUMPTION, hint]);
                let (words, steps) = self.solver.steps.needed();
                Found::Refutation(words, steps)
            }
            Answer::Sat => {
                let inputs = (1..self.cone.len() as u32).filter(|&v| self.cone.operands(v as usize).is_none() && self.solver.is_true(2 * v));
                Found::Start(inputs.map(|v| self.cone.name(2 * v) / 2).collect())
            }
            Answer::Unknown => Found::Nothing(self.spent().unwrap_or("conflicts")),
        }
    }

    /// Tries to show that a gate is equal to the first of its class.
    fn merge(&mut self, v: u32) {
        while let Some((first, opposite)) = self.classes.first(v) {
            let other = 2 * first + u32::from(opposite);
            match self.same(v, other) {
                Answer::Unsat(_) => {
                    self.equal[v as usize] = other;
                    self.state.merged += 1;
                    break;
                }
                Answer::Sat => self.refine(),
                Answer::Unknown => break,
            }
            if self.classes.first(v).is_some_and(|(again, _)| again == first) {
                break;
            }
        }
    }

    /// Whether a gate and a literal can differ, in either way. What cannot be is a clause from then on.
    fn same(&mut self, v: u32, other: Literal) -> Answer {
        let mut answer = Answer::Sat;
        for question in [[2 * v, other ^ 1], [2 * v + 1, other]] {
            // a question that assumes the constant false is answered; one that assumes it true is about the gate alone
            if question[1] == 0 {
                continue;
            }
            answer = self.ask(&question[..if question[1] == 1 { 1 } else { 2 }], self.inside());
            let Answer::Unsat(hint) = answer else { break };
            let clause = std::mem::take(&mut self.solver.last);
            self.solver.add(&clause, hint);
        }
        answer
    }

    fn inside(&self) -> u64 {
        let quarters = 4 * self.vain / self.limits.conflicts.max(1);
        INSIDE[quarters.min(3) as usize]
    }

    /// Parts the classes by the start that the solver found.
    fn refine(&mut self) {
        let solver = &self.solver;
        self.classes.near(|v| solver.is_true(2 * v));
        self.solver.release();
        self.visits += self.cone.len() as u64;
    }

    /// A question, first about the nearest variables alone, what is beyond them being free: most inner gates are equal for a reason nearby. Only if that
    /// is not enough the whole cone is looked at.
    fn ask(&mut self, assumptions: &[Literal], conflicts: u64) -> Answer {
        let before = self.solver.conflicts;
        let answer = self.look(assumptions, conflicts);
        if answer == Answer::Unknown {
            self.vain += self.solver.conflicts - before;
        }
        answer
    }

    fn look(&mut self, assumptions: &[Literal], conflicts: u64) -> Answer {
        let windows = if assumptions == [self.cone.goal] { &WINDOWS[..] } else { &WINDOWS[..3] };
        for &most in windows {
            let (near, all) = self.beneath(assumptions, most);
            let answer = self.solve(assumptions, &near, if all { conflicts } else { conflicts.min(self.inside()) });
            if all || matches!(answer, Answer::Unsat(_)) {
                return answer;
            }
            self.solver.release();
        }
        Answer::Unknown
    }

    fn solve(&mut self, assumptions: &[Literal], among: &[u32], conflicts: u64) -> Answer {
        let Limits { visits, words, stop, .. } = *self.limits;
        let visited = self.visits;
        let over = |solver: &Solver| visited + solver.propagations >= visits || solver.steps.words() >= words || stop();
        self.solver.solve(assumptions, among, conflicts, &over)
    }

    /// The variables beneath literals, by what they are equal to, the last first and at most so many; and whether these are all.
    fn beneath(&mut self, literals: &[Literal], most: usize) -> (Vec<u32>, bool) {
        self.stamp += 1;
        let mut found = Vec::new();
        let mut open: BinaryHeap<u32> = literals.iter().map(|&literal| literal >> 1).collect();
        while let Some(v) = open.pop() {
            if self.stamps[v as usize] == self.stamp {
                continue;
            }
            if found.len() == most {
                return (found, false);
            }
            self.stamps[v as usize] = self.stamp;
            found.push(v);
            let equal = self.equal[v as usize];
            if equal != 2 * v {
                open.push(equal >> 1);
            } else if let Some(operands) = self.cone.operands(v as usize) {
                self.solver.load(v as usize);
                open.extend(operands.map(|operand| variable(operand) as u32));
            }
        }
        self.visits += found.len() as u64;
        (found, true)
    }
}
