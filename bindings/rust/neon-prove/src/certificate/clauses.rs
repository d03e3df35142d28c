//! A question as clauses (DIMACS CNF) and its refutation as an LRAT proof, for checkers of others.
use std::fmt::Write;

use crate::search::FIRST_GATE;

/// The numbers of clauses: the assumption, then the constant, then three for each gate beneath the literal.
struct Clauses<'g> {
    gates: &'g [u64],
    /// The place of each gate among those beneath the literal, from 1 on; 0 for others.
    places: Vec<u32>,
    count: u32,
}

/// A variable's number in the file: that of the graph, and one above all others for the constant.
fn dimacs(literal: u32, gates: usize) -> i64 {
    let variable = if literal < 2 { i64::from(FIRST_GATE) + gates as i64 } else { i64::from(literal / 2) };
    if literal % 2 == 1 { -variable } else { variable }
}

impl<'g> Clauses<'g> {
    fn of(gates: &'g [u64], literal: u32) -> Self {
        let mut places = vec![0; gates.len()];
        let mut count = 0;
        let gate = |literal: u32| (literal / 2).checked_sub(FIRST_GATE).map(|k| k as usize);
        gate(literal).into_iter().for_each(|k| places[k] = 1);
        for k in (0..gates.len()).rev() {
            if places[k] > 0 {
                [gates[k] as u32, (gates[k] >> 32) as u32].into_iter().filter_map(gate).for_each(|operand| places[operand] = 1);
            }
        }
        for place in places.iter_mut().filter(|place| **place > 0) {
            count += 1;
            *place = count;
        }
        Self { gates, places, count }
    }

    /// The number of clauses before the first step.
    fn last(&self) -> u32 {
        2 + 3 * self.count
    }

    /// The clause that a hint cites.
    fn cited(&self, hint: u32) -> u32 {
        match hint {
            3 => 1,
            _ if hint % 4 == 3 => self.last() + hint / 4,
            _ => 3 * self.places[hint as usize / 4] + hint % 4,
        }
    }

    fn cnf(&self, literal: u32) -> String {
        let constant = dimacs(0, self.gates.len());
        let mut text = format!("p cnf {constant} {}\n{} 0\n-{constant} 0\n", self.last(), dimacs(literal, self.gates.len()));
        for (k, gate) in self.gates.iter().enumerate().filter(|(k, _)| self.places[*k] > 0) {
            let of = |literal: u32| dimacs(literal, self.gates.len());
            let (gate, left, right) = (of(2 * (FIRST_GATE + k as u32)), of(*gate as u32), of((gate >> 32) as u32));
            // a String takes all that is written
            let _ = write!(text, "-{gate} {left} 0\n-{gate} {right} 0\n{gate} {} {} 0\n", -left, -right);
        }
        text
    }

    /// The steps. The constant's clause is cited in each: literal 0 is false in every step.
    fn lrat(&self, words: &[u32]) -> String {
        let mut text = String::new();
        let (mut words, mut step) = (words, self.last());
        while let [count, rest @ ..] = words {
            let (clause, rest) = rest.split_at(*count as usize);
            let Some((count, rest)) = rest.split_first() else { break };
            let (hints, after) = rest.split_at(*count as usize);
            step += 1;
            let literals: String = clause.iter().map(|&literal| format!("{} ", dimacs(literal, self.gates.len()))).collect();
            let hints: String = hints.iter().map(|&hint| format!("{} ", self.cited(hint))).collect();
            let constant = if self.constant() { "2 " } else { "" };
            let _ = writeln!(text, "{step} {literals}0 {constant}{hints}0");
            words = after;
        }
        text
    }

    /// Whether a gate beneath the literal has the constant as an operand.
    fn constant(&self) -> bool {
        let has = |gate: u64| (gate as u32) < 2 || ((gate >> 32) as u32) < 2;
        self.gates.iter().zip(&self.places).any(|(gate, place)| *place > 0 && has(*gate))
    }
}

/// The CNF, which can be met where the literal can be true, and the LRAT proof of accepted words. Literal 0 is refuted by the constant's clause.
pub fn files(gates: &[u64], literal: u32, words: &[u32]) -> (String, String) {
    let clauses = Clauses::of(gates, literal);
    let lrat = if literal == 0 { format!("{} 0 1 2 0\n", clauses.last() + 1) } else { clauses.lrat(words) };
    (clauses.cnf(literal), lrat)
}
