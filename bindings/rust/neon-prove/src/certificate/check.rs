//! Certificates checked again, by the proved checker alone.
use std::fs;
use std::path::{Path, PathBuf};

use neon_terms::{Block, Workspace};

use super::FIRST;
use crate::answer::Proof;
use crate::output::Streams;
use crate::pair::{Pair, Places, Register, Routine};
use crate::verdict::Verdict;

/// What a certificate claims.
struct Claim {
    register: Register,
    canonical: bool,
    old: Routine,
    new: Routine,
}

fn text(path: &Path) -> Result<String, String> {
    fs::read_to_string(path).map_err(|error| format!("{}: {error}", path.display()))
}

fn routine(path: PathBuf) -> Result<Routine, String> {
    let wrong = |refusal: neon_terms::Refusal| format!("{}: {refusal}", path.display());
    let records = match text(&path)? {
        text if text.is_empty() => Vec::new(),
        text => Block::from_lines(text.as_bytes()).map_err(wrong)?.to_vec(),
    };
    Routine::new(path.display().to_string(), false, Places::Lines, records).map_err(wrong)
}

fn claim(folder: &Path) -> Result<Claim, String> {
    let path = folder.join("claim.txt");
    let lines = text(&path)?;
    let mut lines = lines.lines();
    let mut line = |before: &str| lines.next().and_then(|line| line.strip_prefix(before)).ok_or(format!("{}: no certificate", path.display()));
    line(FIRST)?;
    let register = Register::named(line("register ")?).ok_or(format!("{}: no register", path.display()))?;
    let canonical = line("by ")? == "canonical pools";
    Ok(Claim { register, canonical, old: routine(folder.join("old.txt"))?, new: routine(folder.join("new.txt"))? })
}

fn words(path: &Path) -> Result<Vec<u32>, String> {
    let bytes = fs::read(path).map_err(|error| format!("{}: {error}", path.display()))?;
    if bytes.len() % 4 != 0 {
        return Err(format!("{}: its {} bytes are no words", path.display(), bytes.len()));
    }
    Ok(bytes.chunks_exact(4).map(|word| u32::from_le_bytes(word.try_into().expect("four bytes"))).collect())
}

/// The steps of words that were accepted.
fn steps(mut words: &[u32]) -> usize {
    let mut steps = 0;
    while let [count, rest @ ..] = words {
        let rest = &rest[*count as usize..];
        words = &rest[1 + rest[0] as usize..];
        steps += 1;
        if *count == 0 {
            break;
        }
    }
    steps
}

/// The register and what shows it equal; or what is refused. Err if the certificate cannot be read.
fn checked(folder: &Path) -> Result<(Register, Result<Proof, String>), String> {
    let Claim { register, canonical, old, new } = claim(folder)?;
    let pair = Pair { old: &old, new: &new };
    if canonical {
        let same = if pair.same(register) { Ok(Proof::CanonicalPools) } else { Err("the canonical pools differ".to_string()) };
        return Ok((register, same));
    }
    let words = words(&folder.join("refutation.bin"))?;
    let asked = pair.asked(register).map_err(|refusal| format!("{}: {refusal}", folder.display()))?;
    let accepted = asked.equal(&mut Workspace::default(), &words).map_err(|refusal| refusal.to_string());
    let proof = |words: Vec<u32>| if words.is_empty() { Proof::Folding } else { Proof::Refutation { steps: steps(&words), words } };
    Ok((register, accepted.map(|()| proof(words))))
}

/// The folders of certificates, in order.
fn folders(folder: &Path) -> Result<Vec<PathBuf>, String> {
    let wrong = |error: std::io::Error| format!("{}: {error}", folder.display());
    let mut found = fs::read_dir(folder).map_err(wrong)?.map(|entry| entry.map(|entry| entry.path())).collect::<Result<Vec<_>, _>>().map_err(wrong)?;
    found.sort();
    if found.is_empty() { Err(format!("{}: there is no certificate", folder.display())) } else { Ok(found) }
}

/// Checks each certificate of a folder, with a line for each and one for all.
pub fn check(folder: &Path, streams: &mut Streams) -> Result<u8, Vec<String>> {
    let mut verdict = Verdict::Equal;
    for folder in folders(folder).map_err(|message| vec![message])? {
        let name = folder.file_name().unwrap_or_default().to_string_lossy().into_owned();
        let (register, checked) = checked(&folder).map_err(|message| vec![message])?;
        let line = match checked {
            Ok(proof) => format!("{name}: {register} is equal, by {proof}"),
            Err(why) => {
                verdict = Verdict::NotDecided;
                format!("{name}: {register} is not decided, {why}")
            }
        };
        streams.lines(&[line]).map_err(|error| vec![format!("standard output: {error}")])?;
    }
    streams.lines(&[verdict.to_string()]).map_err(|error| vec![format!("standard output: {error}")])?;
    Ok(verdict.status())
}
