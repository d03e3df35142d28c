//! Clauses of the solver, and what follows from them: two literals of each are watched.
use super::cone::{Literal, NONE, variable};
use super::sat::{Clause, Solver, Watch};

impl Solver<'_> {
    /// The clauses of a gate, once.
    pub fn load(&mut self, v: usize) {
        if std::mem::replace(&mut self.loaded[v], true) {
            return;
        }
        let Some([a, b]) = self.cone.operands(v) else { return };
        let gate = 2 * v as u32;
        self.add(&[gate ^ 1, a], self.cone.cite(v, 0));
        self.add(&[gate ^ 1, b], self.cone.cite(v, 1));
        self.add(&[gate, a ^ 1, b ^ 1], self.cone.cite(v, 2));
    }

    /// A clause that a hint cites, outside of a question. A clause all of whose literals are false cannot come: each is true at every start.
    pub fn add(&mut self, clause: &[Literal], cite: u32) {
        debug_assert!(self.decisions.is_empty());
        if clause.iter().any(|&literal| self.is_true(literal)) {
            return;
        }
        let id = self.store(clause, cite);
        let begin = self.clauses[id as usize].begin as usize;
        let mut free = 0;
        for k in begin..begin + clause.len() {
            if !self.is_false(self.literals[k]) {
                self.literals.swap(begin + free, k);
                free += 1;
            }
        }
        match free {
            0 => debug_assert!(false, "the clauses of a graph can all be true"),
            1 => {
                self.assign(self.literals[begin], id);
                self.settle();
            }
            _ => self.watch(id),
        }
    }

    pub fn store(&mut self, clause: &[Literal], cite: u32) -> u32 {
        let begin = self.literals.len() as u32;
        self.literals.extend_from_slice(clause);
        self.clauses.push(Clause { begin, length: clause.len() as u32, cite, levels: 0 });
        self.clauses.len() as u32 - 1
    }

    pub fn watch(&mut self, id: u32) {
        let begin = self.clauses[id as usize].begin as usize;
        let (a, b) = (self.literals[begin], self.literals[begin + 1]);
        self.watches[a as usize].push(Watch { clause: id, other: b });
        self.watches[b as usize].push(Watch { clause: id, other: a });
    }

    pub fn clause(&self, id: u32) -> &[Literal] {
        let Clause { begin, length, .. } = self.clauses[id as usize];
        &self.literals[begin as usize..(begin + length) as usize]
    }

    pub fn assign(&mut self, literal: Literal, reason: u32) {
        let v = variable(literal);
        self.is_false[(literal ^ 1) as usize] = true;
        self.level[v] = self.decisions.len() as u32;
        self.place[v] = self.trail.len() as u32;
        self.reason[v] = reason;
        self.trail.push(literal);
    }

    /// Propagates what is true for good, with a step for each literal.
    pub fn settle(&mut self) {
        let conflict = self.propagate();
        debug_assert!(conflict.is_none(), "the clauses of a graph can all be true");
        for k in self.settled..self.trail.len() {
            let literal = self.trail[k];
            let reason = self.reason[variable(literal)];
            let cite = self.clauses[reason as usize].cite;
            self.unit[variable(literal)] = if self.clause(reason).len() == 1 {
                cite
            } else {
                let others = self.clause(reason).iter().filter(|&&other| other != literal);
                let mut hints: Vec<u32> = others.map(|&other| self.unit[variable(other)]).filter(|&unit| unit != NONE).collect();
                hints.push(cite);
                self.steps.push([self.cone.name(literal)].into_iter(), &hints)
            };
        }
        self.settled = self.trail.len();
    }

    /// A clause with no literal left, if propagation comes to one.
    pub fn propagate(&mut self) -> Option<u32> {
        while self.head < self.trail.len() {
            let falsified = self.trail[self.head] ^ 1;
            self.head += 1;
            self.propagations += 1;
            let mut watching = std::mem::take(&mut self.watches[falsified as usize]);
            let (mut kept, mut k, mut conflict) = (0, 0, None);
            while k < watching.len() && conflict.is_none() {
                let watch = watching[k];
                k += 1;
                if self.is_true(watch.other) {
                    watching[kept] = watch;
                    kept += 1;
                    continue;
                }
                // a clause that was forgotten is watched no more
                if self.clauses[watch.clause as usize].length == 0 {
                    continue;
                }
                let Some(first) = self.move_watch(watch.clause, falsified) else { continue };
                watching[kept] = Watch { clause: watch.clause, other: first };
                kept += 1;
                if self.is_false(first) {
                    conflict = Some(watch.clause);
                } else if !self.is_true(first) {
                    self.assign(first, watch.clause);
                }
            }
            watching.copy_within(k.., kept);
            watching.truncate(kept + watching.len() - k);
            self.watches[falsified as usize] = watching;
            if conflict.is_some() {
                return conflict;
            }
        }
        None
    }

    /// Looks for another literal to watch in the place of a false one. If there is none, the clause's first literal.
    fn move_watch(&mut self, clause: u32, falsified: Literal) -> Option<Literal> {
        let Clause { begin, length, .. } = self.clauses[clause as usize];
        let begin = begin as usize;
        if self.literals[begin] == falsified {
            self.literals.swap(begin, begin + 1);
        }
        let first = self.literals[begin];
        if self.is_true(first) {
            return Some(first);
        }
        let free = (begin + 2..begin + length as usize).find(|&k| !self.is_false[self.literals[k] as usize]);
        let Some(free) = free else { return Some(first) };
        self.literals.swap(begin + 1, free);
        self.watches[self.literals[begin + 1] as usize].push(Watch { clause, other: first });
        None
    }

    /// Takes back all decisions but the first so many.
    pub fn back(&mut self, level: usize) {
        let Some(&to) = self.decisions.get(level) else { return };
        for k in (to as usize..self.trail.len()).rev() {
            let literal = self.trail[k];
            let v = variable(literal);
            self.is_false[(literal ^ 1) as usize] = false;
            self.phase[v] = literal & 1 == 0;
            if self.wanted[v] == self.question {
                self.order.push(v as u32);
            }
        }
        self.trail.truncate(to as usize);
        self.decisions.truncate(level);
        self.head = to as usize;
    }
}
