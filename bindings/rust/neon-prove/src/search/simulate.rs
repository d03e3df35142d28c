//! Runs of a cone at 64 starts at a time, and the classes of variables that no run told apart.
use std::collections::HashMap;

use super::cone::{Cone, FIRST_GATE, NONE, variable};
use crate::starts::Starts;

/// Rounds of 64 starts before the first question: as many as run so many gates, within bounds.
const GATES: usize = 40_000_000;
const FEWEST: usize = 32;
const MOST: usize = 512;

pub struct Classes<'c> {
    cone: &'c Cone,
    /// Bit k: the variable at start k of the last round.
    values: Vec<u64>,
    /// All ones for a variable that is true at the first start of all; its negation is compared.
    sign: Vec<u64>,
    /// NONE for a variable that differs from all others.
    class: Vec<u32>,
    /// The members of each class, ascending; two or more, or none.
    members: Vec<Vec<u32>>,
    starts: Starts,
    state: u64,
}

impl<'c> Classes<'c> {
    pub fn new(cone: &'c Cone) -> Self {
        let count = cone.len();
        let mut classes = Self {
            cone,
            values: vec![0; count],
            sign: vec![0; count],
            class: vec![0; count],
            members: vec![(0..count as u32).collect()],
            starts: Starts::new(Vec::new()),
            state: 0x6e65_6f6e,
        };
        let mut registers: Vec<u8> = classes.inputs().into_iter().map(|v| classes.bit(v).0 as u8).collect();
        registers.dedup();
        classes.starts = Starts::new(registers);
        for round in 0..(GATES / count).clamp(FEWEST, MOST) {
            classes.round(round);
        }
        classes
    }

    /// SplitMix64.
    fn random(&mut self) -> u64 {
        self.state = self.state.wrapping_add(0x9e37_79b9_7f4a_7c15);
        let z = (self.state ^ self.state >> 30).wrapping_mul(0xbf58_476d_1ce4_e5b9);
        let z = (z ^ z >> 27).wrapping_mul(0x94d0_49bb_1331_11eb);
        z ^ z >> 31
    }

    /// Starts as those of runs, uniform ones, and such with few ones or few zeros.
    fn round(&mut self, round: usize) {
        if round % 2 == 0 {
            let starts: Vec<_> = self.starts.by_ref().take(64).collect();
            for v in self.inputs() {
                let (register, bit) = self.bit(v);
                self.values[v] = starts.iter().enumerate().map(|(k, start)| ((start.0[register] >> bit & 1) as u64) << k).sum();
            }
        } else {
            for v in self.inputs() {
                self.values[v] = match round % 8 {
                    1 | 5 => self.random(),
                    3 => self.random() & self.random() & self.random(),
                    _ => self.random() | self.random() | self.random(),
                };
            }
        }
        self.run();
        if round == 0 {
            self.sign = self.values.iter().map(|value| (value & 1).wrapping_neg()).collect();
        }
        self.split();
    }

    /// Starts at and near the one that a solver found.
    pub fn near(&mut self, is_true: impl Fn(u32) -> bool) {
        for v in self.inputs() {
            let flips = self.random() & self.random() & self.random() & self.random() & !1;
            self.values[v] = u64::from(is_true(v as u32)).wrapping_neg() ^ flips;
        }
        self.run();
        self.split();
    }

    fn inputs(&self) -> Vec<usize> {
        (1..self.cone.len()).take_while(|&v| self.cone.name(2 * v as u32) < 2 * FIRST_GATE).collect()
    }

    /// The register of an input, and its bit.
    fn bit(&self, v: usize) -> (usize, u32) {
        let at = self.cone.name(2 * v as u32) / 2 - 1;
        (at as usize / 128, at % 128)
    }

    /// The values of gates, from those of inputs.
    fn run(&mut self) {
        for v in 1..self.cone.len() {
            if let Some([a, b]) = self.cone.operands(v) {
                let of = |literal: u32| self.values[variable(literal)] ^ u64::from(literal & 1).wrapping_neg();
                self.values[v] = of(a) & of(b);
            }
        }
    }

    /// Parts the classes by the values of the last round.
    fn split(&mut self) {
        let mut parts: HashMap<u64, Vec<u32>> = HashMap::new();
        for id in 0..self.members.len() {
            let of = |v: u32| self.values[v as usize] ^ self.sign[v as usize];
            let Some(&first) = self.members[id].first() else { continue };
            if self.members[id].iter().all(|&v| of(v) == of(first)) {
                continue;
            }
            let members = std::mem::take(&mut self.members[id]);
            members.iter().for_each(|&v| parts.entry(of(v)).or_default().push(v));
            let mut sorted: Vec<Vec<u32>> = parts.drain().map(|(_, part)| part).collect();
            sorted.sort_unstable_by_key(|part| part[0]);
            for part in sorted {
                let class = if part.len() == 1 { NONE } else { self.members.len() as u32 };
                part.iter().for_each(|&v| self.class[v as usize] = class);
                if part.len() > 1 {
                    self.members.push(part);
                }
            }
        }
    }

    /// The first variable of a variable's class, and whether the two are opposites; None where it is the first itself.
    pub fn first(&self, v: u32) -> Option<(u32, bool)> {
        let members = self.members.get(self.class[v as usize] as usize)?;
        let first = *members.first().filter(|&&first| first < v)?;
        Some((first, self.sign[v as usize] != self.sign[first as usize]))
    }
}
