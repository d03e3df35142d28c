//! What a conflict teaches: the clause of the first unique implication point, with the hints of its step.
use super::cone::{Literal, NONE, variable};
use super::sat::{Clause, Solver};

/// A clause whose literals had no more levels of decisions is never forgotten.
const KEPT: usize = 2;

/// A clause on its way, with what its step cites.
#[derive(Default)]
struct Traced {
    clause: Vec<Literal>,
    /// Hints of literals that are false for good.
    units: Vec<u32>,
    /// Variables whose reasons are cited.
    involved: Vec<usize>,
    marked: Vec<usize>,
}

impl Solver<'_> {
    /// Marks a variable; whether it was not marked before and is not decided for good. The step cites what is decided for good.
    fn mark(&mut self, v: usize, traced: &mut Traced) -> bool {
        if self.seen[v] {
            return false;
        }
        self.seen[v] = true;
        traced.marked.push(v);
        if self.level[v] == 0 {
            // the constant has no step
            traced.units.extend(Some(self.unit[v]).filter(|&unit| unit != NONE));
        }
        self.level[v] > 0
    }

    fn unmark(&mut self, traced: &Traced) {
        traced.marked.iter().for_each(|&v| self.seen[v] = false);
    }

    /// Learns from a conflict, takes back decisions, and assigns the literal that follows.
    pub fn learn(&mut self, conflict: u32) {
        let mut traced = self.trace(conflict);
        self.shorten(&mut traced);
        self.unmark(&traced);
        let Traced { clause, units: mut hints, mut involved, .. } = traced;
        involved.sort_unstable_by_key(|&v| self.place[v]);
        hints.extend(involved.iter().map(|&v| self.clauses[self.reason[v] as usize].cite));
        hints.push(self.clauses[conflict as usize].cite);
        let cite = self.steps.push(clause.iter().map(|&literal| self.cone.name(literal)), &hints);
        self.order.decay();
        self.keep(&clause, cite);
    }

    /// Goes back from the conflict until one literal of the last level is left.
    fn trace(&mut self, conflict: u32) -> Traced {
        let now = self.decisions.len() as u32;
        let mut traced = Traced { clause: vec![0], ..Traced::default() };
        let (mut open, mut at, mut reason) = (0, self.trail.len(), conflict);
        loop {
            let Clause { begin, length, .. } = self.clauses[reason as usize];
            for k in begin..begin + length {
                let literal = self.literals[k as usize];
                let v = variable(literal);
                if !self.mark(v, &mut traced) {
                    continue;
                }
                self.order.bump(v);
                if self.level[v] == now {
                    open += 1;
                } else {
                    traced.clause.push(literal);
                }
            }
            at -= 1;
            while !self.seen[variable(self.trail[at])] {
                at -= 1;
            }
            open -= 1;
            let v = variable(self.trail[at]);
            if open == 0 {
                traced.clause[0] = self.trail[at] ^ 1;
                return traced;
            }
            reason = self.reason[v];
            traced.involved.push(v);
        }
    }

    /// Drops literals whose reason has only other literals of the clause, or such as are false for good.
    fn shorten(&mut self, traced: &mut Traced) {
        let mut kept = vec![traced.clause[0]];
        for k in 1..traced.clause.len() {
            let literal = traced.clause[k];
            let v = variable(literal);
            let reason = self.reason[v];
            let known = |other: usize| other == v || self.seen[other] || self.level[other] == 0;
            if reason == NONE || !self.clause(reason).iter().all(|&other| known(variable(other))) {
                kept.push(literal);
                continue;
            }
            traced.involved.push(v);
            let Clause { begin, length, .. } = self.clauses[reason as usize];
            for at in begin..begin + length {
                self.mark(variable(self.literals[at as usize]), traced);
            }
        }
        traced.clause = kept;
    }

    /// Stores a learnt clause, whose first literal follows after the others' last decision.
    fn keep(&mut self, clause: &[Literal], cite: u32) {
        let id = self.store(clause, cite);
        if clause.len() == 1 {
            self.back(0);
            self.assign(clause[0], id);
            self.settle();
            return;
        }
        let second = (1..clause.len()).max_by_key(|&k| self.level[variable(clause[k])]).unwrap_or(1);
        let begin = self.clauses[id as usize].begin as usize;
        self.literals.swap(begin + 1, begin + second);
        let mut levels: Vec<u32> = clause.iter().map(|&literal| self.level[variable(literal)]).collect();
        let back = levels[second];
        levels.sort_unstable();
        levels.dedup();
        self.clauses[id as usize].levels = levels.len() as u32;
        self.back(back as usize);
        self.watch(id);
        if levels.len() > KEPT {
            self.learnt.push(id);
        }
        self.assign(clause[0], id);
    }

    /// The step for an assumption that is false by others: the negations of those that took part. The hint that cites it.
    pub fn refuse(&mut self, assumption: Literal) -> u32 {
        let mut traced = Traced { clause: vec![assumption ^ 1], ..Traced::default() };
        self.mark(variable(assumption), &mut traced);
        for k in (0..self.trail.len()).rev() {
            let v = variable(self.trail[k]);
            if !self.seen[v] || self.level[v] == 0 {
                continue;
            }
            let reason = self.reason[v];
            if reason == NONE {
                traced.clause.push(self.trail[k] ^ 1);
                continue;
            }
            traced.involved.push(v);
            let Clause { begin, length, .. } = self.clauses[reason as usize];
            for at in begin..begin + length {
                self.mark(variable(self.literals[at as usize]), &mut traced);
            }
        }
        self.unmark(&traced);
        let Traced { clause, units: mut hints, mut involved, .. } = traced;
        involved.reverse();
        hints.extend(involved.iter().map(|&v| self.clauses[self.reason[v] as usize].cite));
        let cite = self.steps.push(clause.iter().map(|&literal| self.cone.name(literal)), &hints);
        self.last = clause;
        cite
    }
}
