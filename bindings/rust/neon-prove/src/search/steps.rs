//! Steps of a refutation, in the layout of `neon_equal`: the number of literals, the literals, the number of hints, the hints.

/// The hint that cites the assumption, which is step 0.
pub const ASSUMPTION: u32 = 3;

/// Steps from 1 on.
#[derive(Default)]
pub struct Steps {
    words: Vec<u32>,
    begins: Vec<usize>,
}

impl Steps {
    /// The hint that cites the new step.
    pub fn push(&mut self, clause: impl ExactSizeIterator<Item = u32>, hints: &[u32]) -> u32 {
        self.begins.push(self.words.len());
        self.words.push(clause.len() as u32);
        self.words.extend(clause);
        self.words.push(hints.len() as u32);
        self.words.extend_from_slice(hints);
        4 * self.begins.len() as u32 + 3
    }

    pub fn words(&self) -> usize {
        self.words.len()
    }

    /// The literals and the hints of a step, the first being 0 here.
    fn parts(&self, k: usize) -> (&[u32], &[u32]) {
        let at = self.begins[k];
        let hints = at + 1 + self.words[at] as usize;
        (&self.words[at + 1..hints], &self.words[hints + 1..hints + 1 + self.words[hints] as usize])
    }

    /// The words without the steps that the last one does not need, and how many steps they are.
    pub fn needed(&self) -> (Vec<u32>, usize) {
        let mut needed = vec![false; self.begins.len()];
        needed.last_mut().into_iter().for_each(|last| *last = true);
        for k in (0..self.begins.len()).rev() {
            if needed[k] {
                self.parts(k).1.iter().filter_map(|&hint| step_of(hint)).for_each(|cited| needed[cited] = true);
            }
        }
        let mut cites = vec![0; self.begins.len()];
        let mut steps = Self::default();
        for k in (0..self.begins.len()).filter(|&k| needed[k]) {
            let (clause, hints) = self.parts(k);
            let hints: Vec<u32> = hints.iter().map(|&hint| step_of(hint).map_or(hint, |cited| cites[cited])).collect();
            cites[k] = steps.push(clause.iter().copied(), &hints);
        }
        (steps.words, steps.begins.len())
    }
}

/// The step that a hint cites, the first being 0 here; None for a gate's clause and for the assumption.
fn step_of(hint: u32) -> Option<usize> {
    if hint % 4 == 3 { (hint as usize / 4).checked_sub(1) } else { None }
}
