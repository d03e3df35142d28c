//! The call: which pairs of routines, which registers, how long, and what is written.
use std::ffi::OsString;
use std::path::PathBuf;

use crate::input::Format;
use crate::pair::{Lane, Register};
use crate::solver::Solver;
use crate::stages::{Settings, Trust};
use crate::values::{lane, number, offsets, registers, result, seconds, solvers, words};

pub const HELP: &str = include_str!("../help.txt");

/// Conflicts of a search that come to nothing, and megabytes for a register, unless others are asked for.
pub const EFFORT: u64 = 100_000;
const MEMORY: u64 = 4096;

pub enum Wanted {
    Help,
    Version,
    Run(Box<Run>),
    /// Certificates in a folder, checked again.
    Check(PathBuf),
}

/// A call that compares.
pub struct Run {
    pub pairs: Pairs,
    pub json: bool,
    pub explain: bool,
    pub replay: Option<PathBuf>,
    pub report: Option<PathBuf>,
    pub certificate: Option<PathBuf>,
}

pub enum Pairs {
    One(Entry),
    /// A file of pairs, how many are compared at a time, and what holds for each unless its line says otherwise.
    List { file: PathBuf, jobs: usize, defaults: Given },
}

/// Two routines and how they are compared.
#[derive(Debug)]
pub struct Entry {
    pub old: PathBuf,
    pub new: PathBuf,
    pub choice: Choice,
}

#[derive(Debug)]
pub struct Choice {
    pub function: Option<String>,
    /// Where the part begins and ends in the old and in the new routine.
    pub from: Option<[u64; 2]>,
    pub to: Option<[u64; 2]>,
    pub format: Option<Format>,
    pub result: Option<Vec<Register>>,
    pub registers: Option<Vec<Register>>,
    pub settings: Settings,
}

/// What a call or a line of a list says of a pair. An option that is given twice is refused, since one of the two would be passed over.
#[derive(Debug, Default, Clone)]
pub struct Given {
    files: Vec<PathBuf>,
    function: Option<String>,
    from: Option<[u64; 2]>,
    to: Option<[u64; 2]>,
    format: Option<Format>,
    result: Option<Vec<Register>>,
    registers: Option<Vec<Register>>,
    lane: Option<Lane>,
    seconds: Option<u64>,
    effort: Option<u64>,
    memory: Option<u64>,
    trust: Option<Trust>,
    agree: Option<()>,
    solvers: Option<Vec<Solver>>,
    /// Not of a call: tests make fewer runs.
    pub starts: Option<usize>,
}

/// The other options of a call.
#[derive(Default)]
struct Whole {
    json: Option<()>,
    explain: Option<()>,
    replay: Option<PathBuf>,
    report: Option<PathBuf>,
    certificate: Option<PathBuf>,
    check: Option<PathBuf>,
    list: Option<PathBuf>,
    jobs: Option<usize>,
}

/// Options without a value.
const PLAIN: [&str; 5] = ["--json", "--explain", "--agree", "--words", "--records"];

/// Options and files, one after the other.
enum Item {
    File(OsString),
    Help,
    Version,
    Option(String, Option<OsString>),
}

fn items(args: impl Iterator<Item = OsString>) -> Vec<Item> {
    let mut args = args;
    let mut items = Vec::new();
    while let Some(arg) = args.next() {
        let Some(option) = arg.to_str().filter(|text| text.starts_with('-') && *text != "-" && !text.starts_with("-:")) else {
            items.push(Item::File(arg));
            continue;
        };
        match option {
            "--help" | "-h" => items.push(Item::Help),
            "--version" | "-V" => items.push(Item::Version),
            "--" => items.extend(args.by_ref().map(Item::File)),
            _ if PLAIN.contains(&option) => items.push(Item::Option(option.to_string(), None)),
            _ => match option.split_once('=').or_else(|| option.strip_prefix("-j").filter(|n| !n.is_empty()).map(|n| ("-j", n))) {
                Some((name, value)) => items.push(Item::Option(name.to_string(), Some(value.into()))),
                None => items.push(Item::Option(option.to_string(), Some(args.next().unwrap_or_default()))),
            },
        }
    }
    items
}

/// `starts` is for tests: how many runs are made, in the place of the usual number.
pub fn parse(args: impl Iterator<Item = OsString>, starts: Option<usize>) -> Result<Wanted, String> {
    let items = items(args);
    if items.iter().any(|item| matches!(item, Item::Help)) {
        return Ok(Wanted::Help);
    }
    if items.iter().any(|item| matches!(item, Item::Version)) {
        return Ok(Wanted::Version);
    }
    let (mut given, mut whole) = (Given { starts, ..Given::default() }, Whole::default());
    let alone = items.len() == 1;
    for item in items {
        match item {
            Item::File(file) => given.files.push(file.into()),
            Item::Option(name, value) => {
                if !whole.option(&name, value.as_ref())? {
                    given.option(&name, value.as_ref())?;
                }
            }
            Item::Help | Item::Version => {}
        }
    }
    if let Some(folder) = whole.check {
        return if alone { Ok(Wanted::Check(folder)) } else { Err("--check goes with no file and no other option".to_string()) };
    }
    whole.finish(given).map(|run| Wanted::Run(Box::new(run)))
}

fn wrong(name: &str, what: &str, value: Option<&OsString>) -> String {
    let shown = value.filter(|value| !value.is_empty()).map_or(String::new(), |value| format!(", not {:?}", value.to_string_lossy()));
    format!("{name} needs {what}{shown}")
}

/// The value of an option that names a file.
fn file(name: &str, value: Option<&OsString>) -> Result<PathBuf, String> {
    value.filter(|value| !value.is_empty()).map(PathBuf::from).ok_or_else(|| wrong(name, "a file", value))
}

/// The value of an option that names a folder.
fn folder(name: &str, value: Option<&OsString>) -> Result<PathBuf, String> {
    value.filter(|value| !value.is_empty()).map(PathBuf::from).ok_or_else(|| wrong(name, "a folder", value))
}

impl Whole {
    /// Whether it is one of these options.
    fn option(&mut self, name: &str, value: Option<&OsString>) -> Result<bool, String> {
        match (name, value) {
            ("--json", None) => once(name, &mut self.json, ())?,
            ("--explain", None) => once(name, &mut self.explain, ())?,
            ("--replay", _) => once(name, &mut self.replay, file(name, value)?)?,
            ("--report", _) => once(name, &mut self.report, file(name, value)?)?,
            ("--certificate", _) => once(name, &mut self.certificate, folder(name, value)?)?,
            ("--check", _) => once(name, &mut self.check, folder(name, value)?)?,
            ("--list", _) => once(name, &mut self.list, file(name, value)?)?,
            ("-j", _) => {
                let jobs = value.and_then(|value| value.to_str()).and_then(number).filter(|n| (1..=1024).contains(n));
                once("-j", &mut self.jobs, jobs.ok_or_else(|| wrong("-j", "a number from 1 to 1024", value))? as usize)?;
            }
            _ => return Ok(false),
        }
        Ok(true)
    }

    fn finish(self, given: Given) -> Result<Run, String> {
        let pairs = match self.list {
            Some(_) if !given.files.is_empty() => return Err("--list takes the pairs from its file: no other file is taken".to_string()),
            Some(_) if self.replay.is_some() => return Err("--replay is for one pair, not for a list".to_string()),
            Some(file) => {
                given.check()?;
                Pairs::List { file, jobs: self.jobs.unwrap_or(1), defaults: given }
            }
            None if self.jobs.is_some() => return Err("-j is for a list".to_string()),
            None => Pairs::One(given.finish()?),
        };
        let (json, explain) = (self.json.is_some(), self.explain.is_some());
        Ok(Run { pairs, json, explain, replay: self.replay, report: self.report, certificate: self.certificate })
    }
}

impl Given {
    fn option(&mut self, name: &str, value: Option<&OsString>) -> Result<(), String> {
        let text = value.and_then(|value| value.to_str()).filter(|text| !text.is_empty());
        let wrong = |what: &str| wrong(name, what, value);
        match name {
            "--words" if value.is_none() => once(name, &mut self.format, Format::Words),
            "--records" if value.is_none() => once(name, &mut self.format, Format::Lines),
            "--function" => once(name, &mut self.function, text.ok_or_else(|| wrong("a name"))?.to_string()),
            "--from" => once(name, &mut self.from, text.and_then(offsets).ok_or_else(|| wrong("an offset, as 0x10, or two, as 0x10,0x14"))?),
            "--to" => once(name, &mut self.to, text.and_then(offsets).ok_or_else(|| wrong("an offset, as 0x10, or two, as 0x10,0x14"))?),
            "--result" => once(name, &mut self.result, text.and_then(result).ok_or_else(|| wrong("registers of v0 to v7, as d0 or v0-v3"))?),
            "--registers" => once(name, &mut self.registers, text.and_then(registers).ok_or_else(|| wrong("registers, as v0,d1 or v0-v3"))?),
            "--lanes" => once(name, &mut self.lane, text.and_then(lane).ok_or_else(|| wrong("8, 16, 32 or 64"))?),
            "--seconds" => once(name, &mut self.seconds, text.and_then(seconds).ok_or_else(|| wrong("a number from 1 to 86400"))?),
            "--effort" => once(name, &mut self.effort, text.and_then(effort).ok_or_else(|| wrong("a number from 0 to 1000000000"))?),
            "--memory" => once(name, &mut self.memory, text.and_then(memory).ok_or_else(|| wrong("a number of MB from 1 to 1048576"))?),
            "--trust" => once(name, &mut self.trust, text.and_then(trust).ok_or_else(|| wrong("proofs or solvers"))?),
            "--agree" if value.is_none() => once(name, &mut self.agree, ()),
            "--solver" => once(name, &mut self.solvers, text.and_then(solvers).ok_or_else(|| wrong("z3, cvc5, z3,cvc5 or none"))?),
            _ => Err(format!("there is no option {name}{}", if PLAIN.contains(&name) { "=" } else { "" })),
        }
    }

    fn check(&self) -> Result<(), String> {
        if self.result.is_some() && self.registers.is_some() {
            return Err("--result and --registers exclude each other".to_string());
        }
        if let (Some(from), Some(to)) = (self.from, self.to) {
            if from.iter().zip(to).any(|(from, to)| *from >= to) {
                return Err("--from has to be before --to".to_string());
            }
        }
        let solvers = self.solvers.as_ref().map_or(0, Vec::len);
        if self.agree.is_some() && solvers < 2 {
            return Err("--agree needs two solvers (--solver z3,cvc5)".to_string());
        }
        if self.trust == Some(Trust::Solvers) && solvers == 0 {
            return Err("--trust solvers needs a solver (--solver z3,cvc5)".to_string());
        }
        Ok(())
    }

    fn settings(&self) -> Settings {
        let solvers = self.solvers.clone().unwrap_or_default();
        Settings {
            lane: self.lane,
            seconds: self.seconds,
            effort: self.effort.unwrap_or(EFFORT),
            memory: self.memory.unwrap_or(MEMORY),
            trust: self.trust.unwrap_or(if solvers.is_empty() { Trust::Proofs } else { Trust::Solvers }),
            solvers,
            agree: self.agree.is_some(),
            starts: self.starts,
        }
    }

    fn finish(self) -> Result<Entry, String> {
        self.check()?;
        let settings = self.settings();
        let [old, new] = <[PathBuf; 2]>::try_from(self.files).map_err(|files| format!("two files are needed, {} are given", files.len()))?;
        let choice = Choice {
            function: self.function,
            from: self.from,
            to: self.to,
            format: self.format,
            result: self.result,
            registers: self.registers,
            settings,
        };
        Ok(Entry { old, new, choice })
    }

    /// What a line does not say is as in the call. One that names registers does not take the call's result, nor the other way round.
    fn or(self, call: &Self) -> Self {
        let registers = self.result.is_none() && self.registers.is_none();
        Self {
            files: self.files,
            function: self.function.or_else(|| call.function.clone()),
            from: self.from.or(call.from),
            to: self.to.or(call.to),
            format: self.format.or(call.format),
            result: self.result.or_else(|| call.result.clone().filter(|_| registers)),
            registers: self.registers.or_else(|| call.registers.clone().filter(|_| registers)),
            lane: self.lane.or(call.lane),
            seconds: self.seconds.or(call.seconds),
            effort: self.effort.or(call.effort),
            memory: self.memory.or(call.memory),
            trust: self.trust.or(call.trust),
            agree: self.agree.or(call.agree),
            solvers: self.solvers.or_else(|| call.solvers.clone()),
            starts: call.starts,
        }
    }
}

/// The pair of a line of a list: OLD NEW [FUNCTION [RESULT]] [OPTION]..., as in a call. None for a blank line and for a comment.
pub fn line(text: &str, defaults: &Given) -> Result<Option<Entry>, String> {
    let words = words(text)?;
    if words.first().is_none_or(|word| word.starts_with('#')) {
        return Ok(None);
    }
    let mut given = Given::default();
    let mut names = Vec::new();
    for item in items(words.into_iter().map(OsString::from)) {
        match item {
            Item::File(file) if given.files.len() < 2 => given.files.push(file.into()),
            Item::File(name) => names.push(name),
            Item::Option(name, value) => given.option(&name, value.as_ref())?,
            Item::Help | Item::Version => return Err("--help and --version are of a call, not of a line".to_string()),
        }
    }
    for (name, option) in names.iter().zip(["--function", "--result"]) {
        given.option(option, Some(name))?;
    }
    if names.len() > 2 {
        return Err(format!("a line has OLD, NEW, a function and its result, and {} words more", names.len() - 2));
    }
    given.or(defaults).finish().map(Some)
}

fn once<T>(name: &str, place: &mut Option<T>, value: T) -> Result<(), String> {
    match place.replace(value) {
        None => Ok(()),
        Some(_) if PLAIN[3..].contains(&name) => Err("one of --words and --records is enough".to_string()),
        Some(_) => Err(format!("{name} is given twice")),
    }
}

fn effort(text: &str) -> Option<u64> {
    number(text).filter(|&n| n <= 1_000_000_000)
}

fn memory(text: &str) -> Option<u64> {
    number(text).filter(|n| (1..=1 << 20).contains(n))
}

fn trust(text: &str) -> Option<Trust> {
    match text {
        "proofs" => Some(Trust::Proofs),
        "solvers" => Some(Trust::Solvers),
        _ => None,
    }
}

#[cfg(test)]
mod tests {
    use super::*;

    fn parsed(text: &str) -> Result<Wanted, String> {
        parse(text.split_whitespace().map(OsString::from), None)
    }

    fn one(text: &str) -> (Entry, Run) {
        let Ok(Wanted::Run(run)) = parsed(text) else { panic!("{text}") };
        let Run { pairs: Pairs::One(entry), json, explain, replay, report, certificate } = *run else { panic!("{text}") };
        let none = Pairs::List { file: PathBuf::new(), jobs: 0, defaults: Given::default() };
        (entry, Run { pairs: none, json, explain, replay, report, certificate })
    }

    fn names(registers: Option<Vec<Register>>) -> Vec<String> {
        registers.unwrap_or_default().iter().map(Register::to_string).collect()
    }

    #[test]
    fn a_full_call() {
        let (entry, _) = one("a --records b --registers v3,v0,v3 --lanes=16 --seconds 2 --solver cvc5,z3");
        assert_eq!((entry.old, entry.new, entry.choice.format), ("a".into(), "b".into(), Some(Format::Lines)));
        let settings = entry.choice.settings;
        assert_eq!((names(entry.choice.registers), settings.lane, settings.seconds), (vec!["v0".into(), "v3".into()], Some(Lane::H), Some(2)));
        assert_eq!((settings.solvers, settings.trust), (vec![Solver::Z3, Solver::Cvc5], Trust::Solvers));
        let (entry, run) = one("-- --a b");
        assert_eq!((entry.old, entry.choice.registers, entry.choice.settings.seconds, run.json), ("--a".into(), None, None, false));
        assert_eq!((entry.choice.settings.solvers, entry.choice.settings.trust), (Vec::new(), Trust::Proofs));
        let (entry, run) = one("a - --function f --from 0x10,20 --to 64 --result d0 --json --explain --replay r --report=x.html");
        assert_eq!((entry.new, entry.choice.from, entry.choice.to), ("-".into(), Some([16, 20]), Some([64, 64])));
        assert_eq!((names(entry.choice.result), run.json, run.explain, run.replay), (vec!["d0".into()], true, true, Some("r".into())));
        for text in ["a --help", "-h", "a b --lanes 7 -h"] {
            assert!(matches!(parsed(text), Ok(Wanted::Help)), "{text}");
        }
        assert!(matches!(parsed("--version"), Ok(Wanted::Version)));
        assert!(matches!(parsed("--check c"), Ok(Wanted::Check(folder)) if folder.as_os_str() == "c"));
        let (entry, run) = one("a b --effort 5 --memory 100 --solver z3,cvc5 --agree --trust proofs --certificate c");
        let Settings { effort, memory, agree, trust, .. } = entry.choice.settings;
        assert_eq!((effort, memory, agree, trust, run.certificate), (5, 100, true, Trust::Proofs, Some("c".into())));
        let Ok(Wanted::Run(run)) = parsed("--list l -j4 --seconds 3") else { panic!() };
        assert!(matches!(run.pairs, Pairs::List { jobs: 4, .. }));
    }

    #[test]
    fn wrong_calls() {
        for text in [
            "", "a", "a b c", "a b --lanes 7", "a b --lanes", "a b --registers v32", "a b --registers v0,", "a b --registers 0", "a b --seconds 0",
            "a b --seconds +1", "a b --seconds 01", "a b --solver yices", "a b --solver z3,none", "a b --records --records", "a b --records=x", "a b --colour",
            "a b --records --words", "a b -x", "a b -j 2", "--list l a b", "--list l --replay r", "--list l -j 0", "--list l -j", "a b --from 3",
            "a b --effort -1", "a b --memory 0", "a b --trust me", "a b --trust solvers", "a b --agree", "a b --agree --solver z3", "a b --check c",
            "--check", "--check c --json", "a b --certificate", "a b --from 8 --to 8", "a b --from 0x", "a b --result v8",
            "a b --result d0 --registers v0", "a b --function", "a b --json=1",
        ] {
            assert!(parsed(text).is_err(), "{text}");
        }
    }

    #[test]
    fn lines_of_a_list() {
        let defaults = Given { seconds: Some(3), registers: registers("v7"), starts: Some(4), ..Given::default() };
        let entry = |text| line(text, &defaults).unwrap().unwrap();
        let first = entry("a.o \"b c.o\" f d0 --lanes 8");
        assert_eq!((first.new, first.choice.function, first.choice.settings.seconds), ("b c.o".into(), Some("f".into()), Some(3)));
        assert_eq!((names(first.choice.result), first.choice.registers), (vec!["d0".into()], None));
        assert_eq!(names(entry("a b").choice.registers), ["v7"]);
        assert_eq!(entry("a b").choice.settings.starts, Some(4));
        assert!(line("  # a comment", &defaults).unwrap().is_none() && line("", &defaults).unwrap().is_none());
        for text in ["a", "a b f d0 x", "a \"b", "a b --list x", "a b -h", "a b --json", "a b f --function g"] {
            assert!(line(text, &defaults).is_err(), "{text}");
        }
    }
}
