//! A SAT solver (CDCL) for questions about the gates of a cone. It writes the step of each clause when it learns it.
//!
//! Assumptions are decisions, so no learnt clause rests on them: each is true at every start.
use super::cone::{Cone, Literal, NONE, variable};
use super::order::Order;
use super::steps::Steps;

/// Learnt clauses that are kept at first, and how many more after each cut.
const LEARNT: usize = 4000;
const MORE_LEARNT: usize = 500;

/// Conflicts up to a restart, times the Luby sequence.
const RESTART: u64 = 64;

#[derive(Debug, Clone, Copy, PartialEq, Eq)]
pub enum Answer {
    /// Not all assumptions can be true. The hint cites the step that says so.
    Unsat(u32),
    /// They are true at the values that the solver has until `release`.
    Sat,
    /// The limit is reached.
    Unknown,
}

#[derive(Clone, Copy)]
pub struct Watch {
    pub clause: u32,
    /// A literal of the clause. If it is true the clause is true.
    pub other: Literal,
}

pub struct Clause {
    pub begin: u32,
    /// 0 for one that was forgotten.
    pub length: u32,
    pub cite: u32,
    /// How many levels of decisions its literals had when it was learnt.
    pub levels: u32,
}

pub struct Solver<'c> {
    pub cone: &'c Cone,
    pub literals: Vec<Literal>,
    pub clauses: Vec<Clause>,
    pub watches: Vec<Vec<Watch>>,
    pub is_false: Vec<bool>,
    pub level: Vec<u32>,
    pub place: Vec<u32>,
    pub reason: Vec<u32>,
    /// The hint of the step with this variable alone, for one that is decided for good.
    pub unit: Vec<u32>,
    pub phase: Vec<bool>,
    pub loaded: Vec<bool>,
    /// The last question in which a variable may be decided.
    pub wanted: Vec<u32>,
    pub question: u32,
    pub trail: Vec<Literal>,
    /// Where each decision is on the trail.
    pub decisions: Vec<u32>,
    pub head: usize,
    /// So many of the trail are true for good and have their steps.
    pub settled: usize,
    pub order: Order,
    pub seen: Vec<bool>,
    /// Learnt clauses that may be forgotten.
    pub learnt: Vec<u32>,
    most_learnt: usize,
    pub steps: Steps,
    /// The clause of the step that the last Unsat cites.
    pub last: Vec<Literal>,
    pub conflicts: u64,
    pub propagations: u64,
}

impl<'c> Solver<'c> {
    pub fn new(cone: &'c Cone) -> Self {
        let variables = cone.len();
        let mut solver = Self {
            cone,
            literals: Vec::new(),
            clauses: Vec::new(),
            watches: vec![Vec::new(); 2 * variables],
            is_false: vec![false; 2 * variables],
            level: vec![0; variables],
            place: vec![0; variables],
            reason: vec![NONE; variables],
            unit: vec![NONE; variables],
            phase: vec![false; variables],
            loaded: vec![false; variables],
            wanted: vec![0; variables],
            question: 0,
            trail: Vec::new(),
            decisions: Vec::new(),
            head: 0,
            settled: 0,
            order: Order::new(variables),
            seen: vec![false; variables],
            learnt: Vec::new(),
            most_learnt: LEARNT,
            steps: Steps::default(),
            last: Vec::new(),
            conflicts: 0,
            propagations: 0,
        };
        // the constant is false in every step, without a hint
        solver.is_false[0] = true;
        solver
    }

    pub fn is_true(&self, literal: Literal) -> bool {
        self.is_false[(literal ^ 1) as usize]
    }

    pub fn is_false(&self, literal: Literal) -> bool {
        self.is_false[literal as usize]
    }

    /// Whether the assumptions can all be true. Only variables of `among`, whose clauses are loaded, are decided. `over` is asked now and then.
    pub fn solve(&mut self, assumptions: &[Literal], among: &[u32], conflicts: u64, over: &dyn Fn(&Self) -> bool) -> Answer {
        self.question += 1;
        self.order.clear();
        for &v in among {
            self.wanted[v as usize] = self.question;
            self.order.push(v);
        }
        let most = self.conflicts + conflicts;
        for round in 0.. {
            let until = (self.conflicts + RESTART * luby(round)).min(most);
            let answer = self.search(assumptions, until);
            if answer == Answer::Sat {
                return answer;
            }
            self.back(0);
            if answer != Answer::Unknown || self.conflicts >= most || over(self) {
                return answer;
            }
            if self.learnt.len() > self.most_learnt {
                self.forget();
            }
        }
        Answer::Unknown
    }

    /// Takes back the decisions that a Sat leaves.
    pub fn release(&mut self) {
        self.back(0);
    }

    fn search(&mut self, assumptions: &[Literal], until: u64) -> Answer {
        loop {
            if let Some(conflict) = self.propagate() {
                self.conflicts += 1;
                self.learn(conflict);
                if self.conflicts >= until {
                    return Answer::Unknown;
                }
                continue;
            }
            let mut next = None;
            while let (None, Some(&literal)) = (next, assumptions.get(self.decisions.len())) {
                if self.is_false(literal) {
                    return Answer::Unsat(self.refuse(literal));
                }
                if self.is_true(literal) {
                    self.decisions.push(self.trail.len() as u32);
                } else {
                    next = Some(literal);
                }
            }
            let Some(literal) = next.or_else(|| self.decide()) else { return Answer::Sat };
            self.decisions.push(self.trail.len() as u32);
            self.assign(literal, NONE);
        }
    }

    fn decide(&mut self) -> Option<Literal> {
        while let Some(v) = self.order.pop() {
            if !self.is_true(2 * v) && !self.is_false(2 * v) {
                return Some(2 * v + u32::from(!self.phase[v as usize]));
            }
        }
        None
    }

    /// Forgets the half of the learnt clauses that spans more levels.
    fn forget(&mut self) {
        let mut learnt = std::mem::take(&mut self.learnt);
        learnt.sort_by_key(|&id| (self.clauses[id as usize].levels, u32::MAX - id));
        for id in learnt.split_off(learnt.len() / 2) {
            let needed = self.clause(id).iter().any(|&literal| self.reason[variable(literal)] == id && self.is_true(literal));
            if needed {
                learnt.push(id);
            } else {
                self.clauses[id as usize].length = 0;
            }
        }
        self.learnt = learnt;
        self.most_learnt += MORE_LEARNT;
    }
}

/// 1 1 2 1 1 2 4 and so on.
fn luby(mut k: u64) -> u64 {
    let mut size = 1;
    while size < k + 1 {
        size = 2 * size + 1;
    }
    while size - 1 != k {
        size = (size - 1) / 2;
        k %= size;
    }
    size.div_ceil(2)
}

#[cfg(test)]
mod tests {
    use super::luby;

    #[test]
    fn restarts() {
        assert_eq!((0..15).map(luby).collect::<Vec<_>>(), [1, 1, 2, 1, 1, 2, 4, 1, 1, 2, 1, 1, 2, 4, 8]);
    }
}
