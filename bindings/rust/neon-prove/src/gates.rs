//! A register by gates: folding shows it equal at once, else the search writes a refutation. The library builds the graph and checks the refutation;
//! the rest of this crate is not believed.
use neon_terms::{Pool, Registers, Workspace};

use crate::answer::{Answer, Proof};
use crate::asked::Asked;
use crate::pair::{Pair, Register};
use crate::progress::{self, grouped};
use crate::runs;
use crate::search::{Found, Limits, Sweeping, search};
use crate::stages::Work;

const MEGABYTE: u64 = 1 << 20;

/// Gates that the search may look at, counted each time, for each conflict that it may have in vain.
const VISITS: u64 = 20_000;

/// Bytes that the search takes for each gate.
const GATE: u64 = 300;

/// Refused if so many bytes are more than may be used.
fn fits(bytes: u64, work: &Work) -> Result<(), String> {
    let wanted = bytes.div_ceil(MEGABYTE);
    if wanted > work.settings.memory { Err(format!("needs {} MB", grouped(wanted))) } else { Ok(()) }
}

/// Memory for a graph and its checks.
fn workspace(old: &Pool, new: &Pool, work: &Work) -> Result<(Workspace, u64), String> {
    let bytes = Workspace::bytes(old, new).map_err(|refusal| refusal.to_string())?;
    fits(bytes, work)?;
    Ok((Workspace::default(), bytes))
}

/// Whether the construction of the gates alone shows that a register is equal. Else why nothing is known.
pub fn folds(pair: &Pair, register: Register, work: &Work) -> Result<bool, String> {
    progress::show(&format!("{register}: folding"));
    let asked = pair.asked(register).map_err(|refusal| refusal.to_string())?;
    let (mut space, _) = workspace(&asked.old.0, &asked.new.0, work)?;
    let folded = asked.equal(&mut space, &[]).is_ok();
    progress::show("");
    Ok(folded)
}

impl Asked {
    /// Ok if the proved checker accepts a refutation.
    pub fn equal(&self, space: &mut Workspace, refutation: &[u32]) -> Result<(), neon_terms::Refusal> {
        space.equal((&self.old.0, self.old.1), (&self.new.0, self.new.1), self.hi, 0, refutation)
    }

    pub fn question<'s>(&self, space: &'s mut Workspace) -> Result<neon_terms::Question<'s>, neon_terms::Refusal> {
        space.question((&self.old.0, self.old.1), (&self.new.0, self.new.1), self.hi, 0)
    }
}

/// Searches for a refutation, or for a start at which a register differs.
pub fn refute(pair: &Pair, register: Register, work: &Work) -> Answer {
    let answer = searched(pair, register, work).unwrap_or_else(Answer::Left);
    progress::show("");
    answer
}

fn searched(pair: &Pair, register: Register, work: &Work) -> Result<Answer, String> {
    let asked = pair.asked(register).map_err(|refusal| refusal.to_string())?;
    let (mut space, bytes) = workspace(&asked.old.0, &asked.new.0, work)?;
    let question = asked.question(&mut space).map_err(|refusal| refusal.to_string())?;
    let bytes = bytes + GATE * question.gates.len() as u64;
    fits(bytes, work)?;
    let limits = Limits {
        conflicts: work.settings.effort,
        visits: work.settings.effort.saturating_mul(VISITS),
        words: ((work.settings.memory * MEGABYTE - bytes) / 8) as usize,
        stop: &|| work.over().is_some(),
    };
    let mut shown = |state: Sweeping| {
        let Sweeping { gates, done, conflicts, .. } = state;
        progress::show(&format!("{register}: sweeping, {} of {} gates, {} conflicts", grouped(done as u64), grouped(gates as u64), grouped(conflicts)));
    };
    let (found, state) = search(question.gates, question.literal, &limits, &mut shown);
    match found {
        Found::Refutation(words, steps) => {
            progress::show(&format!("{register}: checking {} steps", grouped(steps as u64)));
            let checked = asked.equal(&mut space, &words).map_err(|refusal| format!("the refutation is not accepted: {refusal}"));
            checked.map(|()| Answer::Proved(Proof::Refutation { steps, words }))
        }
        Found::Start(inputs) => {
            let difference = runs::difference(pair, register, &start(&inputs));
            difference.map(|difference| Answer::Differs(Box::new(difference))).ok_or("the search found a start at which the runs agree".to_string())
        }
        Found::Nothing("time") => Err(work.over().unwrap_or("the time is over").to_string()),
        Found::Nothing(what) => Err(left(what, state)),
    }
}

/// What the search came to without an answer.
fn left(what: &str, state: Sweeping) -> String {
    let limit = if what == "memory" { "--memory" } else { "--effort" };
    let (done, gates, conflicts) = (grouped(state.done as u64), grouped(state.gates as u64), grouped(state.conflicts));
    let s = if state.conflicts == 1 { "" } else { "s" };
    format!("the search came to nothing after {conflicts} conflict{s}, {done} of {gates} gates swept ({limit} limits its {what})")
}

/// The registers of which these bits are 1: 1 + 128 r + j is bit j of register r.
fn start(inputs: &[u32]) -> Registers {
    let mut start = Registers::default();
    for input in inputs {
        let at = input - 1;
        start.0[at as usize / 128] |= 1 << (at % 128);
    }
    start
}

#[cfg(test)]
mod tests {
    use super::*;
    use crate::pair::{Places, Routine};
    use crate::stages::Settings;
    use neon_terms::Record;

    fn routine(text: &str) -> Routine {
        let numbers = |line: &str| line.split(' ').map(|number| number.parse().expect("a number")).collect::<Vec<u64>>();
        let record = |line: &str| match numbers(line)[..] {
            [operation, arrangement, i, d, n, m] => Record { operation, arrangement, i, d, n, m },
            _ => panic!("{line} is no record"),
        };
        let records = text.split(", ").filter(|line| !line.is_empty()).map(record).collect();
        Routine::new(text.to_string(), false, Places::Lines, records).expect("records that are accepted")
    }

    fn cases() -> usize {
        std::env::var("DAMAGED").map_or(100_000, |text| text.parse().expect("DAMAGED is a number"))
    }

    struct Random(u64);

    impl Random {
        fn below(&mut self, bound: usize) -> usize {
            self.0 = self.0.wrapping_mul(6_364_136_223_846_793_005).wrapping_add(1_442_695_040_888_963_407);
            (self.0 >> 33) as usize % bound.max(1)
        }
    }

    const V0: Register = Register { number: 0, half: false };

    fn refutation(pair: &Pair) -> Vec<u32> {
        let settings = Settings::of_effort(100_000);
        let Answer::Proved(Proof::Refutation { words, .. }) = refute(pair, V0, &Work::new(&settings)) else { panic!("no refutation") };
        words
    }

    /// Words that a prover that lies may give: those of another question, changed, cut off, or any.
    fn lie(r: &mut Random, good: &[Vec<u32>]) -> Vec<u32> {
        let mut words = good[r.below(good.len())].clone();
        match r.below(4) {
            0 => words.truncate(r.below(words.len())),
            1 => {
                let below = 1 << [1, 3, 14, 31][r.below(4)];
                words = (0..r.below(40)).map(|_| r.below(below) as u32).collect();
            }
            _ => {}
        }
        for _ in 0..if words.is_empty() { 0 } else { r.below(4) } {
            let (at, other) = (r.below(words.len()), r.below(words.len()));
            words[at] = [words[at] ^ 1, words[other], words[at].wrapping_add(4), words[at].wrapping_sub(4), r.below(1 << 31) as u32][r.below(5)];
        }
        words
    }

    /// UABD and SABD with their operands exchanged have refutations; UABD and SABD differ, and no words make them equal.
    #[test]
    fn a_prover_that_lies() {
        let equal = [(routine("57 0 0 0 1 2"), routine("57 0 0 0 2 1")), (routine("56 0 0 0 1 2"), routine("56 0 0 0 2 1"))];
        let differ = [("57 0 0 0 1 2", "56 0 0 0 1 2"), ("57 0 0 0 1 2", "57 0 0 0 2 3")].map(|(old, new)| (routine(old), routine(new)));
        let good: Vec<Vec<u32>> = equal.iter().map(|(old, new)| refutation(&Pair { old, new })).collect();
        let asked: Vec<Asked> = differ.iter().map(|(old, new)| Pair { old, new }.asked(V0).expect("a register")).collect();
        let mut space = Workspace::default();
        let mut r = Random(41);
        for case in 0..cases() {
            let words = lie(&mut r, &good);
            let refusal = asked[case % asked.len()].equal(&mut space, &words);
            assert!(refusal.is_err(), "case {case} is accepted: {words:?}");
        }
    }
}
