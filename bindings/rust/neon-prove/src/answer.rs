//! What is known of a register.
use std::fmt;

use crate::json::Json;
use crate::progress::grouped;
use crate::verdict::{Difference, Verdict};

/// What a theorem was applied to.
#[derive(Debug, Clone)]
pub enum Proof {
    /// One tree.
    CanonicalPools,
    /// One literal for each bit of both.
    Folding,
    /// A refutation that the proved checker accepted, and its words.
    Refutation { steps: usize, words: Vec<u32> },
}

impl fmt::Display for Proof {
    fn fmt(&self, f: &mut fmt::Formatter<'_>) -> fmt::Result {
        match self {
            Self::CanonicalPools => f.write_str("canonical pools"),
            Self::Folding => f.write_str("folding"),
            Self::Refutation { steps: 1, .. } => f.write_str("a refutation of 1 step"),
            Self::Refutation { steps, .. } => write!(f, "a refutation of {} steps", grouped(*steps as u64)),
        }
    }
}

#[derive(Debug, Clone)]
pub enum Answer {
    /// A theorem.
    Proved(Proof),
    /// A solver's word for each lane: which solvers.
    Believed(String),
    Differs(Box<Difference>),
    /// What is left, and why.
    Left(String),
}

impl Answer {
    pub fn verdict(&self) -> Verdict {
        match self {
            Self::Proved(_) | Self::Believed(_) => Verdict::Equal,
            Self::Differs(_) => Verdict::Differs,
            Self::Left(_) => Verdict::NotDecided,
        }
    }

    /// What an answer rests on, in a word.
    fn rests_on(&self) -> &'static str {
        match self {
            Self::Proved(_) => "theorem",
            Self::Believed(_) => "solver",
            Self::Differs(_) => "run",
            Self::Left(_) => "nothing",
        }
    }

    /// By what it was found.
    pub fn by(&self) -> String {
        match self {
            Self::Proved(proof) => proof.to_string(),
            Self::Believed(by) => format!("{by} (believed)"),
            Self::Differs(_) => "runs".to_string(),
            Self::Left(why) => why.clone(),
        }
    }

    /// What it rests on, for a reader of a report.
    pub fn basis(&self) -> String {
        match self {
            Self::Proved(proof) => format!("a theorem, by {proof}"),
            Self::Believed(by) => format!("believed, by {by}"),
            Self::Differs(_) => "a run by the proved runner".to_string(),
            Self::Left(_) => "nothing yet".to_string(),
        }
    }

    /// The fields of an object that say what it rests on.
    pub fn fields(&self) -> Vec<(&'static str, Json)> {
        let by = if matches!(self, Self::Left(_)) { "left" } else { "by" };
        let mut fields = vec![("rests_on", Json::text(self.rests_on())), (by, Json::text(&self.by()))];
        if let Self::Proved(Proof::Refutation { steps, .. }) = self {
            fields.push(("steps", Json::number(*steps as u64)));
        }
        fields
    }
}
