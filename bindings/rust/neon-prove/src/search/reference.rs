//! Graphs and the check of refutations, written again in the plainest way, for tests.
use super::cone::{FIRST_GATE, Literal};

/// Gates without folding and without sharing.
#[derive(Default)]
pub struct Builder(pub Vec<u64>);

impl Builder {
    pub fn input(k: u32) -> Literal {
        2 * (1 + k)
    }

    pub fn and(&mut self, a: Literal, b: Literal) -> Literal {
        self.0.push(u64::from(a) + (u64::from(b) << 32));
        2 * (FIRST_GATE + self.0.len() as u32 - 1)
    }

    pub fn or(&mut self, a: Literal, b: Literal) -> Literal {
        self.and(a ^ 1, b ^ 1) ^ 1
    }

    pub fn xor(&mut self, a: Literal, b: Literal) -> Literal {
        let (both, none) = (self.and(a, b), self.and(a ^ 1, b ^ 1));
        self.and(both ^ 1, none ^ 1)
    }

    /// The sum of two words, and of a carry.
    pub fn sum(&mut self, a: &[Literal], b: &[Literal], mut carry: Literal) -> Vec<Literal> {
        let mut bit = |&a, &b| {
            let half = self.xor(a, b);
            let sum = self.xor(half, carry);
            let (both, through) = (self.and(a, b), self.and(half, carry));
            carry = self.or(both, through);
            sum
        };
        a.iter().zip(b).map(|(a, b)| bit(a, b)).collect()
    }

    pub fn product(&mut self, a: &[Literal], b: &[Literal]) -> Vec<Literal> {
        let mut sum = vec![0; a.len()];
        for (k, &bit) in b.iter().enumerate() {
            let row: Vec<Literal> = (0..a.len()).map(|j| if j < k { 0 } else { self.and(a[j - k], bit) }).collect();
            sum = self.sum(&sum, &row, 0);
        }
        sum
    }

    /// True where two words differ.
    pub fn differ(&mut self, a: &[Literal], b: &[Literal]) -> Literal {
        a.iter().zip(b).fold(0, |any, (&a, &b)| {
            let one = self.xor(a, b);
            self.or(any, one)
        })
    }

    /// Whether a literal is true where input k is bit k of `inputs` and all others are false.
    pub fn is_true(&self, literal: Literal, inputs: u64) -> bool {
        let mut values = vec![false; FIRST_GATE as usize];
        (0..64).for_each(|k| values[1 + k] = inputs >> k & 1 == 1);
        let of = |values: &[bool], literal: u32| values[literal as usize / 2] != (literal % 2 == 1);
        for &gate in &self.0 {
            let value = of(&values, gate as u32) && of(&values, (gate >> 32) as u32);
            values.push(value);
        }
        of(&values, literal)
    }

    /// The clause of a gate or of a step that a hint cites.
    fn cited(&self, steps: &[Vec<Literal>], hint: u32) -> Option<Vec<Literal>> {
        let at = hint as usize / 4;
        if hint % 4 == 3 {
            return steps.get(at).cloned();
        }
        let (gate, [a, b]) = (2 * (FIRST_GATE + at as u32), self.0.get(at).map(|word| [*word as u32, (word >> 32) as u32])?);
        Some([vec![gate ^ 1, a], vec![gate ^ 1, b], vec![gate, a ^ 1, b ^ 1]][hint as usize % 4].clone())
    }

    fn follows(&self, steps: &[Vec<Literal>], clause: &[Literal], hints: &[u32]) -> bool {
        let mut falsified: Vec<Literal> = clause.iter().copied().chain([0]).collect();
        for &hint in hints {
            let Some(mut left) = self.cited(steps, hint) else { return false };
            left.retain(|literal| !falsified.contains(literal));
            left.dedup();
            match left[..] {
                [] => return true,
                [one] => falsified.push(one ^ 1),
                _ => return false,
            }
        }
        false
    }

    /// Whether a refutation of a literal is accepted.
    pub fn accepts(&self, goal: Literal, words: &[u32]) -> bool {
        let mut steps = vec![vec![goal]];
        let mut words = words;
        loop {
            let Some((clause, rest)) = list(words) else { return false };
            let Some((hints, rest)) = list(rest) else { return false };
            let there = clause.iter().all(|&literal| literal < 2 * (FIRST_GATE + self.0.len() as u32));
            if !there || !self.follows(&steps, clause, hints) {
                return false;
            }
            if clause.is_empty() {
                return true;
            }
            steps.push(clause.to_vec());
            words = rest;
        }
    }
}

/// Words after their number, and what follows them.
fn list(words: &[u32]) -> Option<(&[u32], &[u32])> {
    let (&count, rest) = words.split_first()?;
    rest.split_at_checked(count as usize)
}
