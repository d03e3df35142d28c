//! Certificates: for each register that is shown equal a folder with what shows it, for this program and for programs of others.
pub mod aiger;
mod check;
pub mod clauses;

use std::fs;
use std::io;
use std::path::{Path, PathBuf};
use std::sync::Mutex;

use neon_terms::{Record, Workspace};

use crate::answer::{Answer, Proof};
use crate::pair::{Pair, Register};

pub use check::check;

/// The first line of a claim.
const FIRST: &str = "neon-prove certificate 1";

/// A folder for certificates.
pub struct Certificates {
    folder: PathBuf,
    /// How many there are, and what went wrong first.
    state: Mutex<(usize, Option<String>)>,
}

impl Certificates {
    /// A folder that is new or empty: what is in it would be taken for a part of the certificates.
    pub fn new(folder: &Path) -> Result<Self, String> {
        let wrong = |error: io::Error| format!("{}: {error}", folder.display());
        fs::create_dir_all(folder).map_err(wrong)?;
        match fs::read_dir(folder).map_err(wrong)?.next() {
            None => Ok(Self { folder: folder.to_path_buf(), state: Mutex::default() }),
            Some(_) => Err(format!("{}: the folder for certificates is not empty", folder.display())),
        }
    }

    /// Keeps what shows an answer, if it is a theorem.
    pub fn keep(&self, pair: &Pair, register: Register, answer: &Answer) {
        let Answer::Proved(proof) = answer else { return };
        let mut state = self.state.lock().expect("nothing panics while it is held");
        state.0 += 1;
        let folder = self.folder.join(format!("{:04}-{register}", state.0));
        if let (Err(error), None) = (write(&folder, pair, register, proof), &state.1) {
            state.1 = Some(format!("{}: {error}", folder.display()));
        }
    }

    pub fn failed(&self) -> Option<String> {
        self.state.lock().expect("nothing panics while it is held").1.clone()
    }
}

/// Records in columns.
fn lines(records: &[Record]) -> String {
    let line = |&Record { operation, arrangement, i, d, n, m }: &Record| format!("{operation:>4}{arrangement:>4}{i:>4}{d:>4}{n:>4}{m:>4}\n");
    records.iter().map(line).collect()
}

fn write(folder: &Path, pair: &Pair, register: Register, proof: &Proof) -> io::Result<()> {
    fs::create_dir(folder)?;
    let file = |name: &str| folder.join(name);
    let kind = if let Proof::CanonicalPools = proof { "canonical pools" } else { "gates" };
    fs::write(file("old.txt"), lines(pair.old.records()))?;
    fs::write(file("new.txt"), lines(pair.new.records()))?;
    fs::write(file("claim.txt"), format!("{FIRST}\nregister {register}\nby {kind}\nold {}\nnew {}\n", pair.old.name, pair.new.name))?;
    let words = match proof {
        Proof::CanonicalPools => return Ok(()),
        Proof::Folding => &[][..],
        Proof::Refutation { words, .. } => words,
    };
    let asked = pair.asked(register).map_err(io::Error::other)?;
    let mut space = Workspace::default();
    let question = asked.question(&mut space).map_err(io::Error::other)?;
    fs::write(file("refutation.bin"), words.iter().flat_map(|word| word.to_le_bytes()).collect::<Vec<u8>>())?;
    fs::write(file("graph.aig"), aiger::file(question.gates, question.literal))?;
    let (cnf, lrat) = clauses::files(question.gates, question.literal, words);
    fs::write(file("question.cnf"), cnf)?;
    fs::write(file("proof.lrat"), lrat)
}
