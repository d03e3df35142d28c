//! The library against the Rust's own lane functions, Arm values, a judge of damaged pools, and the line program.
//! `tests/library/compare` builds it among the oracle's modules.

// The original's modules hold much that is not called here.
#![allow(dead_code, unused_imports)]

use std::thread::JoinHandle;

// The original's two lower crates are this one.
extern crate self as r2smt_common;
extern crate self as r2smt_ir;

pub mod expr;
pub mod program;

mod arm;
mod dag;
mod eval;
mod forms;
mod lift;
mod registers;
mod run;

mod blocks_part;
mod cadical_part;
mod canonical_part;
mod columns_part;
mod damage_part;
mod evaluate;
mod evaluate_part;
mod forms_part;
mod gates;
mod gates_part;
mod join_part;
mod judge;
mod lines_part;
mod native;
mod pools;
mod refutation_part;
mod run_part;
mod saturation_part;
mod script_part;
mod solver_part;
mod table;
mod texts_part;
mod values_part;
mod words_part;

/// Stub of `r2smt_common::Arch`.
#[derive(Debug, Clone, Copy, PartialEq, Eq)]
pub enum Arch {
    Aarch64,
}

/// Stub of `r2smt_common::Address`.
#[derive(Debug, Clone, Copy)]
pub struct Address(pub u64);

impl Address {
    pub fn new(at: u64) -> Self {
        Self(at)
    }
}

/// A part of the comparison: its name and its function, which gets COUNT / divisor + least.
struct Part {
    name: &'static str,
    divisor: u64,
    least: u64,
    run: fn(u64),
}

const fn part(name: &'static str, divisor: u64, least: u64, run: fn(u64)) -> Part {
    Part { name, divisor, least, run }
}

/// The parts: a new one is a module and a row. The first takes as long as all the others, and so runs in parallel with them.
const PARTS: &[Part] = &[
    part("forms", 25_000, 8, forms_part::main),
    part("blocks", 800, 64, blocks_part::main),
    part("values", 1, 0, values_part::main),
    part("texts", 250, 10, texts_part::main),
    part("damage", 1, 0, damage_part::main),
    part("evaluate", 10, 10, evaluate_part::main),
    part("run", 10, 10, run_part::main),
    part("run-values", 1, 0, run_part::values),
    part("saturation", 10, 10, saturation_part::main),
    part("saturation-values", 1, 0, saturation_part::values),
    part("words", 1, 0, words_part::main),
    part("columns", 10, 1_000, columns_part::main),
    part("join", 10, 10, join_part::main),
    part("canonical", 10, 10, canonical_part::main),
    part("scripts", 100, 0, script_part::main),
    part("gates", 100, 0, gates_part::main),
    part("refutations", 1, 5_000, refutation_part::main),
    part("cadical", 66_000, 1, cadical_part::main),
    part("lines", 5_000, 10, lines_part::main),
    part("solvers", 5_000, 5, solver_part::main),
];

/// What a stored sample has: the input, and a judge's answers.
struct Sample {
    input: String,
    answers: String,
}

/// The samples in tests/library/stored that a judge makes, by name and number of cases; tests/library/stored/NAME.c reads NAME.in and writes NAME.out.
const STORED: &[(&str, u64, fn(u64) -> Sample)] = &[
    ("pools", 300, damage_part::stored),
    ("evaluate", 200, evaluate_part::stored),
    ("words", 300, words_part::stored),
    ("columns", 150, columns_part::stored),
    ("join", 60, join_part::stored),
    ("canonical", 120, canonical_part::stored),
    ("scripts", 200, script_part::stored),
    ("lane_scripts", 120, script_part::stored_lanes),
    ("saturation", 200, saturation_part::stored),
    ("gates", 60, refutation_part::stored),
];

impl Part {
    /// The library has to make do with 8 MB of stack, whatever this machine gives the first thread.
    fn start(&self, count: u64) -> JoinHandle<()> {
        let (run, share) = (self.run, count / self.divisor + self.least);
        std::thread::Builder::new().name(self.name.to_string()).stack_size(8 << 20).spawn(move || run(share)).expect("a thread")
    }
}

/// A failed comparison panics, and the program ends with 101.
fn end(part: JoinHandle<()>) {
    if part.join().is_err() {
        std::process::exit(101);
    }
}

/// `compare all COUNT`, `compare PART COUNT` or `compare stored FOLDER`.
fn main() {
    let arguments: Vec<String> = std::env::args().skip(1).collect();
    let [name, value] = arguments.as_slice() else { panic!("two arguments") };
    if name == "stored" {
        for (name, cases, sample) in STORED {
            let Sample { input, answers } = sample(*cases);
            std::fs::write(format!("{value}/{name}.in"), input).expect("the input is written");
            std::fs::write(format!("{value}/{name}.out"), answers).expect("the answers are written");
        }
        return;
    }
    let count = value.parse().expect("a number");
    let mut parts = PARTS.iter().filter(|part| name == "all" || name == part.name);
    let first = parts.next().expect("a part of that name").start(count);
    for part in parts {
        end(part.start(count));
    }
    end(first);
}
