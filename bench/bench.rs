//! Times the library's operations: `bench ROUNDS ORACLE LANES FORMS RUN SCRIPT`, the best of ROUNDS passes each, as
//! `oracle-bench bench` does; for blocks and programs a quarter as many. Writes a line `name value` per figure; bench/run makes the table.

#[path = "../tests/library/rust/gates.rs"]
#[allow(dead_code)]
mod gates;
mod graphs;
#[path = "../tests/library/rust/native.rs"]
#[allow(dead_code)]
mod native;
#[path = "../tests/library/rust/pools.rs"]
#[allow(dead_code)]
mod pools;
mod questions;

use std::hint::black_box;
use std::io::Write;
use std::process::{Command, Stdio};
use std::time::Instant;

use native::{bytes, canonical, join, lower_block, lower_block_saturation, lower_instruction, pool_check, read_lines, read_words, run_in_place, script_length, text_length, value_to, words, write_script, write_text, write_words};
use pools::{Node, Rng, grow, pool_words};

type Record = [u64; 6];

const NONE: usize = 65535;
const RESERVE: usize = 768;
const MOST_RECORDS: usize = 85;
const SATURATION_RESERVE: usize = 2048;
const SATURATION_RECORDS: usize = 31;

/// Nanoseconds of the best of `rounds` runs.
fn best(rounds: u64, mut run: impl FnMut()) -> f64 {
    let mut least = u128::MAX;
    for _ in 0..rounds {
        let start = Instant::now();
        run();
        least = least.min(start.elapsed().as_nanos());
    }
    least as f64
}

/// Every legal form, on registers 0, 1 and 2.
fn forms(oracle: &str) -> (Vec<u8>, Vec<Record>) {
    let list = Command::new(oracle).arg("forms").output().expect("the oracle").stdout;
    let record = |line: &str| -> Record { std::array::from_fn(|k| line[4 * k..4 * k + 4].trim().parse().expect("a number")) };
    let records = String::from_utf8(list.clone()).expect("text").lines().map(record).collect();
    (list, records)
}

/// v0 to v31, the low halves of v0, v1 and v2, and the places that one instruction needs.
fn sources() -> Vec<u64> {
    let mut nodes: Vec<Node> = (0..32).map(|r| Node { kind: 1, width: 128, operands: [0; 3], data: [r, 0] }).collect();
    nodes.extend((0..3).map(|r| Node { kind: 16, width: 64, operands: [r, 0, 0], data: [63, 0] }));
    let mut pool = pool_words(&nodes);
    pool.resize(4 * (35 + RESERVE), 0);
    pool
}

/// The arguments of a form on the sources: those that its code names.
fn call(&[operation, arrangement, i, ..]: &Record) -> ([u64; 3], [usize; 3]) {
    let code = native::form_code(operation, arrangement);
    let node = |r: usize, wanted: bool, full: bool| if !wanted { NONE } else if full { r } else { 32 + r };
    let full = [1, 3, 5, 6].contains(&arrangement);
    let nodes = [node(0, code & 0x10 != 0, full), node(1, true, code & 0x20 != 0), node(2, code & 0x08 != 0, code & 0x40 != 0)];
    ([operation, arrangement, i], nodes)
}

/// Mean time to lower a form by one instruction, including the pool check of 35 nodes.
fn build(rounds: u64, all: &[Record]) {
    let cases: Vec<([u64; 3], [usize; 3])> = all.iter().map(call).collect();
    let mut pool = words(&sources());
    let (mut nodes, mut most) = (0, 0);
    for &(case, sources) in &cases {
        let (number, _, after) = lower_instruction(&mut pool, 35, case, sources);
        assert_eq!(number, 0, "a legal form is done");
        nodes += after - 35;
        most = most.max(after - 35);
    }
    let time = best(rounds, || {
        for &(case, sources) in &cases {
            black_box(lower_instruction(&mut pool, 35, black_box(case), sources));
        }
    });
    println!("forms {}\nnodes {nodes}\nmost {most}\nbuild {:.0}", all.len(), time / all.len() as f64);
}

/// The pool of a form's block of one, its count and the node of its term.
type Term = (Vec<u64>, usize, usize);

fn terms(all: &[Record]) -> Vec<Term> {
    all.iter()
        .map(|record| {
            let mut pool = words(&vec![0; 4 * (32 + RESERVE)]);
            let mut results = words(&[0; 34]);
            assert_eq!(lower_block(&mut pool, record, &mut results), 0);
            let count = results.items()[32] as usize;
            (pool.items()[..4 * count].to_vec(), count, results.items()[0] as usize)
        })
        .collect()
}

/// Mean time of a visit to a node, over the values of the terms of all forms at one start, including the pool check.
fn value(rounds: u64, terms: &[Term]) {
    let mut r = Rng(0x6a09_e667_f3bc_c908);
    let start: Vec<u64> = (0..64).map(|_| r.next()).collect();
    let mut found = words(&[0; 3]);
    let mut visits = 0;
    let time = best(rounds, || {
        visits = 0;
        for (pool, count, node) in terms {
            visits += black_box(value_to(&mut found, pool, *count, *node, &start, u64::MAX)).1;
        }
    });
    assert!(visits > 0);
    println!("visits {visits}\nvisit {:.2}", time / visits as f64);
}

/// Mean times of a byte of text, over the terms of all forms: to ask for its length, and to write it.
fn text(rounds: u64, terms: &[Term]) {
    let mut measured = 0;
    let length = best(rounds, || {
        measured = 0;
        for (pool, count, node) in terms {
            measured += black_box(text_length(pool, *count, *node, 65536)).1;
        }
    });
    let mut buffer = bytes(65536);
    let mut written = 0;
    let time = best(rounds, || {
        written = 0;
        for (pool, count, node) in terms {
            written += black_box(write_text(pool, *count, *node, &mut buffer)).1;
        }
    });
    assert_eq!(measured, written as u64, "each length is that of its text");
    println!("bytes {written}\nlength {:.2}\ntext {:.2}", length / written as f64, time / written as f64);
}

/// A valid pool of 65,535 nodes of random kinds.
fn random() -> Vec<u64> {
    let mut r = Rng(0x9e37_79b9_7f4a_7c15);
    let mut nodes: Vec<Node> = vec![];
    while nodes.len() < 65535 {
        // operands among the last nodes, so that a pool of this size is made quickly
        let from = nodes.len().saturating_sub(200);
        let Some(mut node) = grow(&mut r, &nodes[from..]) else { continue };
        let used = node.used().len();
        for m in &mut node.operands[..used] {
            *m += from;
        }
        nodes.push(node);
    }
    pool_words(&nodes)
}

/// The terms of forms in a mixed order, one after the other in one pool, and registers after them.
fn lowered(all: &[Record]) -> Vec<u64> {
    let first = sources();
    let mut pool = words(&[&first[..], &vec![0; 4 * 65535 - first.len()]].concat());
    let mut count = 35;
    let mut r = Rng(0x9e37_79b9_7f4a_7c15);
    while count < 64511 {
        let (case, nodes) = call(&r.one_of(all));
        count = lower_instruction(&mut pool, count, case, nodes).2;
    }
    let mut all = pool.items()[..4 * count].to_vec();
    while all.len() < 4 * 65000 {
        all.extend_from_slice(&first[..4]);
    }
    all
}

fn check(rounds: u64, all: &[Record]) {
    for (name, pool) in [("check", lowered(all)), ("random", random())] {
        for count in [1000, 2000, 4000, 8000, 16000, 32000, 65000] {
            let time = best(rounds, || assert!(black_box(pool_check(&pool, count))));
            println!("{name}-{count} {:.2}", time / count as f64);
        }
    }
}

/// Blocks of k records, all forms in a mixed order and on all registers: the mean time of a record.
fn blocks(rounds: u64, all: &[Record]) {
    let mut r = Rng(0x2545_f491_4f6c_dd1d);
    let mut mixed = all.to_vec();
    for k in (1..mixed.len()).rev() {
        mixed.swap(k, r.below(k as u64 + 1) as usize);
    }
    for record in &mut mixed {
        record[3] = r.below(32);
        record[4] = r.below(32);
        if record[5] != 0 {
            // a 16-bit element is in v0 to v15
            record[5] = r.below(if (48..=53).contains(&record[0]) && record[1] == 5 { 16 } else { 32 });
        }
    }
    let mut pool = words(&vec![0; 4 * (32 + RESERVE * MOST_RECORDS)]);
    let mut results = words(&[0; 34]);
    for k in [1, 2, 4, 8, 16, 32, 64, MOST_RECORDS] {
        let blocks: Vec<Vec<u64>> = mixed.chunks_exact(k).map(<[Record]>::concat).collect();
        let time = best(rounds.div_ceil(4), || {
            for block in &blocks {
                assert_eq!(black_box(lower_block(&mut pool, block, &mut results)), 0);
            }
        });
        println!("block-{k} {:.0}", time / (blocks.len() * k) as f64);
    }
    saturation(rounds, &mixed);
}

/// The longest blocks with a saturation bit: the mean time of a record.
fn saturation(rounds: u64, mixed: &[Record]) {
    let mut pool = words(&vec![0; 4 * (33 + SATURATION_RESERVE * SATURATION_RECORDS)]);
    let mut results = words(&[0; 35]);
    let blocks: Vec<Vec<u64>> = mixed.chunks_exact(SATURATION_RECORDS).map(<[Record]>::concat).collect();
    let time = best(rounds.div_ceil(4), || {
        for block in &blocks {
            assert_eq!(black_box(lower_block_saturation(&mut pool, block, &mut results)), 0);
        }
    });
    println!("saturation {:.0}", time / (blocks.len() * SATURATION_RECORDS) as f64);
}

/// The operations of a family, by its first and last.
const FAMILIES: [(&str, u64, u64); 11] = [
    ("shifts", 1, 16),
    ("inserts", 17, 18),
    ("sums", 19, 26),
    ("narrows", 27, 37),
    ("unary", 38, 39),
    ("multiplies", 40, 41),
    ("doubling", 42, 53),
    ("mixed", 54, 55),
    ("differences", 56, 59),
    ("bits", 60, 63),
    ("high", 64, 67),
];

/// Mean time to run a record, by family and over all forms, in blocks of up to 64, including the checks of the records.
fn run(rounds: u64, all: &[Record]) {
    let mut r = Rng(0x3c6e_f372_fe94_f82b);
    let mut registers = words(&(0..64).map(|_| r.next()).collect::<Vec<u64>>());
    let mut results = words(&[0, 0]);
    let mut time_of = |records: &[Record]| {
        let blocks: Vec<Vec<u64>> = records.chunks(64).map(<[Record]>::concat).collect();
        let time = best(rounds, || {
            for block in &blocks {
                assert_eq!(black_box(run_in_place(&mut registers, block, &mut results)), 0);
            }
        });
        time / records.len() as f64
    };
    for (name, first, last) in FAMILIES {
        let records: Vec<Record> = all.iter().copied().filter(|record| (first..=last).contains(&record[0])).collect();
        println!("run-{name} {:.0}", time_of(&records));
    }
    println!("run {:.0}", time_of(all));
}

/// Two pools of half the nodes joined: the mean time of a node of the third.
fn joins(rounds: u64, all: &[Record]) {
    let pool = lowered(all);
    let half = 32767;
    let mut joined = words(&vec![0; 4 * (2 * half - 31)]);
    let time = best(rounds, || {
        let (number, _, count) = black_box(join((&pool, half, 0), (&pool, half, 1), &mut joined));
        assert_eq!((number, count), (0, 2 * half - 31));
    });
    println!("join {:.2}", time / (2 * half - 31) as f64);
}

fn var(register: u64) -> Node {
    Node { kind: 1, width: 128, operands: [0; 3], data: [register, 0] }
}

fn sum(a: usize, b: usize) -> Node {
    Node { kind: 3, width: 128, operands: [a, b, 0], data: [0; 2] }
}

/// Canonical pools of 65,535 nodes, ns per node: a chain, pairs of equal nodes, random sums, and three pools whose keys are built to collide.
fn canonicals(rounds: u64) {
    let mut r = Rng(0x9e37_79b9_7f4a_7c15);
    let mut some = |n: usize| r.below(n as u64) as usize;
    let chain = (0..65535).map(|n| if n == 0 { var(0) } else { sum(n - 1, 0) }).collect();
    let pairs = (0..65535).map(|n| if n < 2 { var(0) } else { sum((n & !1) - 1, (n & !1) - 2) }).collect();
    let random = (0..65535).map(|n| if n < 32 { var(n as u64) } else { sum(some(n), some(n)) }).collect();
    for (name, nodes) in [("chain", chain), ("pairs", pairs), ("random", random), ("collide", one_bucket()), ("ites", ites()), ("twice", two_buckets())] {
        let pool: Vec<u64> = pool_words(&nodes);
        let mut out = words(&vec![0; pool.len()]);
        let time = best(rounds.div_ceil(10), || assert_eq!(black_box(canonical((&pool, nodes.len(), nodes.len() - 1), &mut out)).0, 0));
        println!("canonical-{name} {:.1}", time / nodes.len() as f64);
    }
}

const CONSTANT: u64 = 2 + (128 << 16);

/// `mix` and `other_mix` of crates/canonical_classes.
fn mix(x: u64) -> u64 {
    (x % (1 << 32)) * 227832187 + (x >> 32) * 251658257
}

fn other_mix(x: u64) -> u64 {
    (x % (1 << 32)) * 198491317 + (x >> 32) * 217645199
}

/// The bucket that crates/canonical_classes has in its first table for a node of these words, its operands' classes in the second.
fn bucket([word, operands, x, y]: [u64; 4]) -> u64 {
    let start = mix(mix(word) + operands);
    mix(mix(start + x % (1 << 62)) + y % (1 << 62)) / (1 << 20) % 65536
}

/// The bucket in its second table.
fn second_bucket([word, operands, x, y]: [u64; 4]) -> u64 {
    let start = other_mix(other_mix(y) + x % (1 << 62));
    other_mix(other_mix(start + operands) + word % (1 << 62)) / (1 << 20) % 65536
}

/// Constants, as many as a chain of sums can keep, and the sums.
fn with_sums(constants: impl Iterator<Item = [u64; 2]>) -> Vec<Node> {
    let mut nodes: Vec<Node> = constants.take(32768).map(|data| Node { kind: 2, width: 128, operands: [0; 3], data }).collect();
    for k in 1..32768 {
        let last = if k == 1 { 0 } else { nodes.len() - 1 };
        nodes.push(sum(last, k));
    }
    nodes
}

/// Constants of one bucket of the first table that differ only in their last bits.
fn one_bucket() -> Vec<Node> {
    let of = |high: u64| bucket([CONSTANT, 0, 0, high]);
    with_sums((0..).map(|k: u64| k << 24).filter(|&high| of(high) == of(0)).map(|high| [0, high]))
}

/// Constants of one bucket of the first table and one of the second: the high word makes up for what the low one adds to the first mix.
fn two_buckets() -> Vec<Node> {
    let data = |k: u64| [k << 20, (1 << 61) - mix(mix(mix(CONSTANT)) + (k << 20))];
    let second = |[x, y]: [u64; 2]| second_bucket([CONSTANT, 0, x, y]);
    let all = (0..).map(data).filter(|&d| second(d) == second(data(0)));
    with_sums(all.inspect(|&[x, y]| assert_eq!(bucket([CONSTANT, 0, x, y]), (mix(1 << 61) >> 20) % 65536)))
}

/// Ites of one bucket of the first table, each on the one before. 512 conditions and sums come first, enough for each to find two operands.
fn ites() -> Vec<Node> {
    let mut nodes: Vec<Node> = (0..32).map(var).collect();
    nodes.extend((0..512).map(|k| Node { kind: 12, width: 0, operands: [k / 16, k % 16, 0], data: [0; 2] }));
    nodes.push(sum(31, 0));
    (1..3552).for_each(|k| nodes.push(sum(nodes.len() - 1, k % 31)));
    let word = 15 + (128 << 16) + (0xffff_ffff << 32);
    let mut r = Rng(0x9e37_79b9_7f4a_7c15);
    while nodes.len() < 65535 {
        let last = nodes.len() - 1;
        let operands = loop {
            let a = r.next();
            let [c, k] = [32 + a as usize % 512, 544 + (a >> 32) as usize % (nodes.len() - 544)];
            if bucket([word, (c | last << 16 | k << 32) as u64, 0, 0]) == 0 {
                break [c, last, k];
            }
        };
        nodes.push(Node { kind: 15, width: 128, operands, data: [0; 2] });
    }
    nodes
}

/// SQADD 16B on a source that is k cuts of cuts: each lane's cut of each source goes past them all. Microseconds, including the pool check.
fn nested(rounds: u64) {
    let mut r = vec![Node { kind: 1, width: 128, operands: [0; 3], data: [1, 0] }];
    for k in [1, 1_000, 4_000, 16_000, 64_000] {
        while r.len() <= k {
            r.push(Node { kind: 16, width: 128, operands: [r.len() - 1, 0, 0], data: [127, 0] });
        }
        let mut all = pool_words(&r);
        all.resize(4 * (r.len() + RESERVE), 0);
        let mut pool = words(&all);
        let count = r.len();
        let time = best(rounds.div_ceil(20), || {
            assert_eq!(black_box(lower_instruction(&mut pool, count, [19, 1, 0], [NONE, k, k])).0, 0);
        });
        println!("nested-{k} {:.1}", time / 1000.0);
    }
}

/// Mean time of a record written as a word, of a word read as a record, and of a line read as one, in a list of all forms.
fn coding(rounds: u64, all: &[Record]) {
    let flat = all.concat();
    let mut text = bytes(4 * all.len());
    let write = best(rounds, || assert_eq!(black_box(write_words(black_box(&flat), &mut text)).0, 0));
    let raw = text.items().to_vec();
    let mut records = words(&vec![0; flat.len()]);
    let read = best(rounds, || assert_eq!(black_box(read_words(black_box(&raw), &mut records)).0, 0));
    assert!(records.items() == flat, "reading what was written gives the records");
    let lines: Vec<u8> = all.iter().flat_map(|record| (record.map(|x| format!("{x:4}")).concat() + "\n").into_bytes()).collect();
    let columns = best(rounds, || assert_eq!(black_box(read_lines(black_box(&lines), &mut records)).0, 0));
    assert!(records.items() == flat, "reading what was listed gives the records");
    let [write, read, columns] = [write, read, columns].map(|time| time / all.len() as f64);
    println!("write-word {write:.1}\nread-word {read:.1}\nread-line {columns:.1}");
}

/// A byte of a script and a node of its length, of the terms of instructions and of kinds in random order.
fn scripts(rounds: u64, all: &[Record]) {
    for (name, pool) in [("script", lowered(all)), ("script-random", random())] {
        let count = pool.len() / 4;
        let wide: Vec<usize> = (0..count).filter(|&n| Node::at(&pool, n).width == 128).collect();
        let nodes = [wide[0], wide[wide.len() - 1]];
        for (form, lane) in [("", None), ("-lane", Some([7, 0]))] {
            let length = script_length(&pool, count, nodes, lane).1;
            let mut buffer = bytes(length);
            let time = best(rounds, || assert_eq!(black_box(write_script(&pool, count, nodes, lane, &mut buffer)), (0, length)));
            println!("{name}{form} {:.2}", time / length as f64);
            let time = best(rounds, || assert_eq!(black_box(script_length(&pool, count, nodes, lane)), (0, length)));
            println!("{name}{form}-length {:.2}", time / count as f64);
        }
    }
}

/// A whole run of a program.
fn program(rounds: u64, command: &[&str], input: &[u8]) -> f64 {
    best(rounds, || {
        let mut child = Command::new(command[0]).args(&command[1..]).stdin(Stdio::piped()).stdout(Stdio::null()).spawn().expect("a program");
        child.stdin.take().expect("its input").write_all(input).expect("all is read");
        assert!(child.wait().expect("its end").success());
    })
}

fn main() {
    let arguments: Vec<String> = std::env::args().skip(1).collect();
    let rounds: u64 = arguments[0].parse().expect("a number of rounds");
    let (list, all) = forms(&arguments[1]);
    build(rounds, &all);
    let terms = terms(&all);
    text(rounds, &terms);
    value(rounds, &terms);
    run(rounds.div_ceil(4), &all);
    check(rounds, &all);
    blocks(rounds, &all);
    nested(rounds);
    coding(rounds, &all);
    joins(rounds, &all);
    canonicals(rounds);
    scripts(rounds.div_ceil(4), &all);
    questions::main(rounds, &all);
    // in turn, so that both have the same machine load
    let (mut ours, mut rust) = (f64::MAX, f64::MAX);
    for _ in 0..rounds.div_ceil(4) {
        ours = ours.min(program(1, &[&arguments[2]], &list));
        rust = rust.min(program(1, &[&arguments[1], "lines"], &list));
    }
    println!("program {:.0}\nprogram-rust {:.0}", ours / 1000.0, rust / 1000.0);
    println!("listing {:.0}", program(rounds.div_ceil(4), &[&arguments[3]], &[]) / 1000.0);
    // one block of as many records as a block may have, from all over the list
    let block: Vec<u8> = list.chunks(25).step_by(all.len() / MOST_RECORDS).take(MOST_RECORDS).flatten().copied().collect();
    println!("run-program {:.0}", program(rounds.div_ceil(4), &[&arguments[4], "examples/start.txt"], &block) / 1000.0);
    println!("script-program {:.0}", program(rounds.div_ceil(4), &[&arguments[5], "0", "1"], &block) / 1000.0);
}
