//! Graphs and refutations, written once more from the definitions: what a literal is at 64 starts, which step of a refutation is refused, and a
//! prover by cases for small graphs.
use std::collections::{BTreeSet, HashSet};

use crate::pools::Rng;

/// Variables before the first gate: the constant, and 128 bits of 32 registers.
pub const INPUTS: usize = 4097;

/// The left and the right literal of a gate.
pub fn operands(word: u64) -> [u32; 2] {
    [word as u32, (word >> 32) as u32]
}

/// The literal of a gate.
pub fn output(gate: usize) -> u32 {
    2 * (INPUTS + gate) as u32
}

fn variable(literal: u32) -> usize {
    literal as usize / 2
}

/// A truth value at each of 64 starts, by variable.
pub struct Truths(Vec<u64>);

impl Truths {
    pub fn of(graph: &[u64], starts: &[[u128; 32]; 64]) -> Self {
        let mut all = vec![0; INPUTS];
        for (s, start) in starts.iter().enumerate() {
            for (r, value) in start.iter().enumerate() {
                for j in 0..128 {
                    all[1 + 128 * r + j] |= ((value >> j & 1) as u64) << s;
                }
            }
        }
        let mut truths = Self(all);
        for &word in graph {
            let [left, right] = operands(word);
            let both = truths.at(left) & truths.at(right);
            truths.0.push(both);
        }
        truths
    }

    /// A literal at the 64 starts. Panics if the graph does not have it.
    pub fn at(&self, literal: u32) -> u64 {
        let value = self.0[variable(literal)];
        if literal % 2 == 1 { !value } else { value }
    }
}

/// Clause `part` of a gate.
pub fn clause(graph: &[u64], gate: usize, part: u32) -> Vec<u32> {
    let ([left, right], it) = (operands(graph[gate]), output(gate));
    match part {
        0 => vec![it ^ 1, left],
        1 => vec![it ^ 1, right],
        _ => vec![it, left ^ 1, right ^ 1],
    }
}

/// The list that begins with its length at the front of some words, and the words after it.
fn list(words: &[u32]) -> Option<(&[u32], &[u32])> {
    let (&length, rest) = words.split_first()?;
    (length as usize <= rest.len()).then(|| rest.split_at(length as usize))
}

/// Whether a step's hints lead to a conflict.
fn conflict(graph: &[u64], steps: &[&[u32]], clause_of_step: &[u32], hints: &[u32]) -> bool {
    let mut falses: HashSet<u32> = clause_of_step.iter().copied().collect();
    falses.insert(0);
    for &hint in hints {
        let (at, part) = (hint as usize / 4, hint % 4);
        let cited = match part {
            3 if at < steps.len() => steps[at].to_vec(),
            0..3 if at < graph.len() => clause(graph, at, part),
            _ => return false,
        };
        let left: BTreeSet<u32> = cited.into_iter().filter(|literal| !falses.contains(literal)).collect();
        match (left.len(), left.first()) {
            (0, _) => return true,
            (1, Some(literal)) => falses.insert(literal ^ 1),
            _ => return false,
        };
    }
    false
}

/// The number of the first refused step of a refutation of a literal; 0 if it is accepted.
pub fn refused_step(graph: &[u64], literal: u32, refutation: &[u32]) -> usize {
    let assumption = [literal];
    let mut steps: Vec<&[u32]> = vec![&assumption];
    let mut rest = refutation;
    loop {
        let Some((clause, after)) = list(rest) else { return steps.len() };
        let Some((hints, after)) = list(after) else { return steps.len() };
        if clause.iter().any(|&literal| output(graph.len()) <= literal) || !conflict(graph, &steps, clause, hints) {
            return steps.len();
        }
        if clause.is_empty() {
            return 0;
        }
        steps.push(clause);
        rest = after;
    }
}

/// Writes a step after others.
pub fn write_step(words: &mut Vec<u32>, clause: &[u32], hints: &[u32]) {
    words.push(clause.len() as u32);
    words.extend(clause);
    words.push(hints.len() as u32);
    words.extend(hints);
}

/// The gates that a literal depends on, in order, and the inputs.
pub fn cone(graph: &[u64], literal: u32) -> (Vec<usize>, Vec<usize>) {
    let mut reached = vec![false; INPUTS + graph.len()];
    reached[variable(literal)] = true;
    for gate in (0..graph.len()).rev() {
        if reached[INPUTS + gate] {
            operands(graph[gate]).iter().for_each(|&operand| reached[variable(operand)] = true);
        }
    }
    ((0..graph.len()).filter(|&gate| reached[INPUTS + gate]).collect(), (1..INPUTS).filter(|&input| reached[input]).collect())
}

/// A refutation of a literal by cases: inputs are set true and false in turn, in any order, until unit propagation ends in a conflict.
pub struct Cases<'a> {
    graph: &'a [u64],
    literal: u32,
    gates: Vec<usize>,
    inputs: Vec<usize>,
    words: Vec<u32>,
    steps: u32,
}

impl Cases<'_> {
    /// None if the literal can be true.
    pub fn refute(r: &mut Rng, graph: &[u64], literal: u32) -> Option<Vec<u32>> {
        let (gates, mut inputs) = cone(graph, literal);
        for k in (1..inputs.len()).rev() {
            inputs.swap(k, r.below(k as u64 + 1) as usize);
        }
        let mut cases = Cases { graph, literal, gates, inputs, words: vec![], steps: 0 };
        cases.case(&mut vec![]).then_some(cases.words)
    }

    /// Refutes the case that these literals are true; false if it can be.
    fn case(&mut self, assumed: &mut Vec<u32>) -> bool {
        let mut hints = vec![3];
        if !self.propagate(assumed, &mut hints) {
            let Some(&input) = self.inputs.get(assumed.len()) else { return false };
            hints.clear();
            for sign in 0..2 {
                assumed.push(2 * input as u32 + sign);
                let refuted = self.case(assumed);
                assumed.pop();
                if !refuted {
                    return false;
                }
                hints.push(4 * self.steps + 3);
            }
        }
        let clause: Vec<u32> = assumed.iter().map(|literal| literal ^ 1).collect();
        write_step(&mut self.words, &clause, &hints);
        self.steps += 1;
        true
    }

    /// Whether the case ends in a conflict by unit propagation, the clauses in order.
    fn propagate(&self, assumed: &[u32], hints: &mut Vec<u32>) -> bool {
        let mut falses: HashSet<u32> = assumed.iter().map(|literal| literal ^ 1).collect();
        falses.extend([0, self.literal ^ 1]);
        if falses.contains(&self.literal) {
            return true;
        }
        loop {
            let before = hints.len();
            for &gate in &self.gates {
                for part in 0..3 {
                    let clause = clause(self.graph, gate, part);
                    let mut left: Vec<u32> = clause.into_iter().filter(|literal| !falses.contains(literal)).collect();
                    left.dedup();
                    if left.len() > 1 || left.len() == 1 && falses.contains(&(left[0] ^ 1)) {
                        continue;
                    }
                    hints.push(4 * gate as u32 + part);
                    match left.first() {
                        Some(literal) => falses.insert(literal ^ 1),
                        None => return true,
                    };
                }
            }
            if hints.len() == before {
                return false;
            }
        }
    }
}
