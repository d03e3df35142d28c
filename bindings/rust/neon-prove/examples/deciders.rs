//! What decides registers, pair by pair, in one run and with the same limits: folding, sweeping, z3 and cvc5 by lanes, CaDiCaL and ABC on the same graph.
//!
//!     cargo run --release -p neon-prove --example deciders -- SECONDS FILE...
//!
//! A FILE is in the layout of tests/programs/prove_pairs.txt. Times are milliseconds of a register. A way that gives no answer in the limit has `no`, a program
//! that is absent `-`.
use std::fs;
use std::io::Write;
use std::path::Path;
use std::process::{Command, Stdio};
use std::time::{Duration, Instant};

use neon_prove::measure::{Measured, measured};
use neon_terms::Record;

struct Pair {
    name: String,
    /// Numbers, and whether the low half alone counts.
    registers: Vec<(u8, bool)>,
    routines: [Vec<Record>; 2],
}

/// Pairs but those that differ.
fn pairs(text: &str) -> Vec<Pair> {
    let mut pairs: Vec<Pair> = Vec::new();
    let (mut side, mut differs) = (0, false);
    for line in text.lines().filter(|line| !line.is_empty() && !line.starts_with("# ")) {
        if let Some((name, rest)) = line.strip_prefix("## ").and_then(|head| head.split_once(": ")) {
            differs = rest.starts_with("differs");
            let named = rest.split_once("--registers ").map_or("", |(_, names)| names.split([' ', ';']).next().unwrap_or_default());
            let number = |name: &str| name.strip_prefix(['v', 'd'])?.parse().ok();
            let registers = named.split(',').filter_map(|name| Some((number(name)?, name.starts_with('d')))).collect();
            side = 0;
            pairs.extend((!differs).then(|| Pair { name: name.to_string(), registers, routines: [Vec::new(), Vec::new()] }));
        } else if differs {
            continue;
        } else if line == "--" {
            side = 1;
        } else if let Some(pair) = pairs.last_mut() {
            let word = u32::from_str_radix(&line[..8], 16).expect("a word in hexadecimal");
            pair.routines[side].push(Record::from_word(word).expect("an instruction of ours"));
        }
    }
    pairs
}

/// Milliseconds of a program, if it says what is wanted in time.
fn run(program: &str, args: &[&str], input: &str, wanted: &str, limit: Duration) -> Option<f64> {
    let begun = Instant::now();
    let mut child = Command::new("timeout")
        .arg(limit.as_secs().max(1).to_string())
        .arg(program)
        .args(args)
        .stdin(Stdio::piped())
        .stdout(Stdio::piped())
        .stderr(Stdio::null())
        .spawn()
        .expect("timeout is there");
    // a program that ends early reads no more
    let _ = child.stdin.take().expect("it is piped").write_all(input.as_bytes());
    let output = child.wait_with_output().expect("it ends");
    String::from_utf8_lossy(&output.stdout).contains(wanted).then(|| 1000.0 * begun.elapsed().as_secs_f64())
}

fn is_there(program: &str) -> bool {
    std::env::split_paths(&std::env::var_os("PATH").unwrap_or_default()).any(|folder| folder.join(program).exists())
}

/// All lanes, one after the other, in the limit together.
fn solver(program: &str, args: &[&str], lanes: &[String], seconds: u64) -> Option<f64> {
    let end = Instant::now() + Duration::from_secs(seconds);
    let lane = |script: &String| run(program, args, script, "unsat", end.saturating_duration_since(Instant::now()));
    if lanes.is_empty() { None } else { lanes.iter().map(lane).sum() }
}

fn shown(program: &str, time: impl FnOnce() -> Option<f64>) -> String {
    if !is_there(program) { "-".to_string() } else { time().map_or("no".to_string(), |time| format!("{time:.0}")) }
}

fn row(name: &str, measured: &Measured, seconds: u64, folder: &Path) {
    let Measured { gates, folds, folding, steps, sweeping, lanes, cnf, aiger } = measured;
    let (cnf_file, aiger_file) = (folder.join("question.cnf"), folder.join("graph.aig"));
    fs::write(&cnf_file, cnf).expect("the folder can be written");
    fs::write(&aiger_file, aiger).expect("the folder can be written");
    let limit = Duration::from_secs(seconds);
    let folded = if *folds { format!("{:.2}", 1000.0 * folding) } else { "no".to_string() };
    let swept = match steps {
        _ if *folds => String::new(),
        Some(steps) => format!("{:.0} ({steps} steps)", 1000.0 * sweeping),
        None => "no".to_string(),
    };
    let z3 = shown("z3", || solver("z3", &["-smt2", "-in"], lanes, seconds));
    let cvc5 = shown("cvc5", || solver("cvc5", &["--lang=smt2"], lanes, seconds));
    let cadical = shown("cadical", || run("cadical", &["-q", &cnf_file.to_string_lossy()], "", "s UNSATISFIABLE", limit));
    let prove = format!("read_aiger {}; iprove", aiger_file.display());
    let abc = shown("berkeley-abc", || run("berkeley-abc", &["-c", &prove], "", "UNSATISFIABLE", limit));
    println!("| {name} | {} | {gates} | {folded} | {swept} | {z3} | {cvc5} | {cadical} | {abc} |", lanes.len());
}

fn main() {
    let mut args = std::env::args().skip(1);
    let seconds = args.next().and_then(|text| text.parse().ok()).expect("the seconds of a register");
    let folder = std::env::temp_dir().join(format!("deciders-{}", std::process::id()));
    fs::create_dir_all(&folder).expect("a folder");
    println!("| pair | lanes | gates | folding | sweeping | z3 | cvc5 | CaDiCaL | ABC |\n|---|---|---|---|---|---|---|---|---|");
    for file in args {
        for Pair { name, registers, routines: [old, new] } in pairs(&fs::read_to_string(file).expect("a file of pairs")) {
            let written = |register: &u8| old.iter().chain(&new).any(|record| record.d == u64::from(*register));
            let all = || (0..32).filter(written).map(|register| (register, false)).collect();
            for (register, half) in if registers.is_empty() { all() } else { registers } {
                let measured = measured(old.clone(), new.clone(), register, half, seconds);
                measured.iter().for_each(|measured| row(&format!("{name} {}{register}", if half { 'd' } else { 'v' }), measured, seconds, &folder));
            }
        }
    }
    fs::remove_dir_all(&folder).expect("the folder is there");
}
