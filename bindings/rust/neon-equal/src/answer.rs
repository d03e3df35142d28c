//! What is known of a register.
use crate::json::Json;
use crate::verdict::{Difference, Verdict};

#[derive(Debug, Clone)]
pub enum Answer {
    /// One tree: a theorem.
    Same,
    /// A solver's word for each lane: which solvers, for how many lanes.
    Unsat(String),
    Differs(Box<Difference>),
    /// What is left, and why.
    Left(String),
}

impl Answer {
    pub fn verdict(&self) -> Verdict {
        match self {
            Self::Same | Self::Unsat(_) => Verdict::Equal,
            Self::Differs(_) => Verdict::Differs,
            Self::Left(_) => Verdict::NotDecided,
        }
    }

    /// What an answer rests on, in a word.
    fn rests_on(&self) -> &'static str {
        match self {
            Self::Same => "theorem",
            Self::Unsat(_) => "solver",
            Self::Differs(_) => "run",
            Self::Left(_) => "nothing",
        }
    }

    /// By what it was found.
    pub fn by(&self) -> &str {
        match self {
            Self::Same => "canonical pools",
            Self::Unsat(by) => by,
            Self::Differs(_) => "runs",
            Self::Left(why) => why,
        }
    }

    /// What it rests on, for a reader of a report.
    pub fn basis(&self) -> String {
        match self {
            Self::Same => "a theorem, by canonical pools".to_string(),
            Self::Unsat(by) => format!("believed, by {by}"),
            Self::Differs(_) => "a run by the proved runner".to_string(),
            Self::Left(_) => "nothing yet".to_string(),
        }
    }

    /// The fields of an object that say what it rests on.
    pub fn fields(&self) -> Vec<(&'static str, Json)> {
        let by = if matches!(self, Self::Left(_)) { "left" } else { "by" };
        vec![("rests_on", Json::text(self.rests_on())), (by, Json::text(self.by()))]
    }
}
