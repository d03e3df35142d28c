//! Values of a sample of terms, asked of z3 and of cvc5: at a fixed start no term has another value than the judge's, and no node of a
//! random pool another than `neon_value` finds.
use std::fmt::Write as _;
use std::path::Path;
use std::process::{Command, Stdio};

use crate::blocks_part::record;
use crate::evaluate;
use crate::evaluate_part;
use crate::judge::RESERVE;
use crate::native::{self, words};
use crate::pools::{Node, Rng, grow, pool_words};

const OPERATORS: [&str; 12] = ["bvadd", "bvsub", "bvmul", "bvand", "bvor", "bvxor", "bvshl", "bvlshr", "bvashr", "=", "bvult", "bvslt"];

fn bits(v: evaluate::Value, width: u64) -> String {
    let digits: String = (0..width).rev().map(|k| if v[(k / 64) as usize] >> (k % 64) & 1 == 1 { '1' } else { '0' }).collect();
    format!("#b{digits}")
}

/// The term of a node over the names of those before it.
fn term(pool: &[u64], n: usize) -> String {
    let node = Node::at(pool, n);
    let [a, b, c] = node.operands;
    let [x, y] = node.data;
    match node.kind {
        1 => format!("v{x}"),
        2 => bits([x, y, 0], node.width),
        3..=14 => format!("({} n{a} n{b})", OPERATORS[node.kind as usize - 3]),
        15 => format!("(ite n{a} n{b} n{c})"),
        16 => format!("((_ extract {x} {y}) n{a})"),
        17 => format!("(concat n{a} n{b})"),
        kind => {
            let more = node.width - (pool[4 * a] >> 16 & 0xffff);
            format!("((_ {} {more}) n{a})", if kind == 18 { "zero_extend" } else { "sign_extend" })
        }
    }
}

/// The registers' values, and the nodes of a pool.
fn define(script: &mut String, pool: &[u64], count: usize, start: &[u128; 32]) {
    script.push_str("(push 1)\n");
    for (register, value) in start.iter().enumerate() {
        writeln!(script, "(declare-const v{register} (_ BitVec 128))\n(assert (= v{register} {}))", bits(evaluate::of(*value), 128)).expect("a string");
    }
    for n in 0..count {
        let sort = match Node::at(pool, n).width {
            0 => "Bool".to_string(),
            w => format!("(_ BitVec {w})"),
        };
        writeln!(script, "(define-fun n{n} () {sort} {})", term(pool, n)).expect("a string");
    }
}

/// A random pool, and the question whether a node can have another value than the library finds.
fn pool_question(r: &mut Rng, script: &mut String) {
    let mut nodes: Vec<Node> = vec![];
    let count = 2 + r.below(16) as usize;
    while nodes.len() < count {
        nodes.extend(grow(r, &nodes));
    }
    let pool = pool_words(&nodes);
    let start = evaluate_part::start(r);
    define(script, &pool, count, &start);
    let differs: Vec<String> = (0..count)
        .map(|n| {
            let (number, value, _) = native::value(&pool, count, n, &start, 1 << 20);
            assert_eq!(number, 0, "node {n} of {pool:x?}");
            match nodes[n].width {
                0 => format!("(distinct n{n} {})", value == evaluate::of(1)),
                w => format!("(distinct n{n} {})", bits(value, w)),
            }
        })
        .collect();
    writeln!(script, "(assert (or {}))\n(check-sat)\n(pop 1)", differs.join(" ")).expect("a string");
}

/// A block of a few records, and the question whether a register can have another value than the one found.
fn question(r: &mut Rng, script: &mut String) {
    let mut pool = words(&vec![0; 4 * (32 + RESERVE * 3)]);
    let records: Vec<u64> = (0..1 + r.below(3)).flat_map(|_| record(r, 4)).collect();
    let mut results = words(&[0; 34]);
    assert_eq!(native::lower_block(&mut pool, &records, &mut results), 0);
    let count = results.items()[32] as usize;
    let start: [u128; 32] = std::array::from_fn(|_| r.wide());
    let values = evaluate::values(pool.items(), count, &start);
    define(script, pool.items(), count, &start);
    let differs: Vec<String> = (0..32)
        .map(|k| results.items()[k] as usize)
        .map(|n| format!("(distinct n{n} {})", bits(values[n], 128)))
        .collect();
    writeln!(script, "(assert (or {}))\n(check-sat)\n(pop 1)", differs.join(" ")).expect("a string");
}

/// The solvers, with what each has to be told for more than one question.
const SOLVERS: [(&str, &[&str]); 2] = [("z3", &[]), ("cvc5", &["--incremental"])];

/// What a solver answers, or None if it is not installed.
fn answers(solver: &str, options: &[&str], path: &Path) -> Option<String> {
    Command::new(solver).arg("--version").output().ok()?;
    let output = Command::new(solver).args(options).arg(path).stderr(Stdio::inherit()).output().expect("the solver");
    Some(String::from_utf8(output.stdout).expect("text"))
}

pub fn main(count: u64) {
    let mut r = Rng(0x510e_527f_ade6_82d1);
    let mut script = "(set-logic QF_BV)\n".to_string();
    for _ in 0..count {
        question(&mut r, &mut script);
        pool_question(&mut r, &mut script);
    }
    let path = std::env::temp_dir().join(format!("neon-terms-{}.smt2", std::process::id()));
    std::fs::write(&path, &script).expect("a file");
    let answered = SOLVERS.map(|(solver, options)| (solver, answers(solver, options, &path)));
    std::fs::remove_file(&path).expect("the file");
    for (solver, answers) in answered {
        let Some(answers) = answers else {
            println!("skipped: compare with {solver} (no {solver})");
            continue;
        };
        let unsat = answers.lines().filter(|line| *line == "unsat").count() as u64;
        assert!(unsat == 2 * count && answers.lines().count() as u64 == 2 * count, "{solver} says: {answers}");
        println!("solvers: {solver} finds no other value of any register's term, at the starts of {count} blocks, nor of any node of {count} random pools");
    }
}
