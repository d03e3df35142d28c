//! Times of questions and refutations beside those of plain Rust (`graphs`), on the same pools and in the same run.
use std::hint::black_box;

use crate::gates::{Cases, INPUTS, refused_step};
use crate::graphs::{self, Graph};
use crate::native::{self, Memory, words};
use crate::pools::{Node, Rng, pool_words};
use crate::{MOST_RECORDS, RESERVE, Record, best};

/// The pool of a block and the node of v0.
struct Side {
    pool: Vec<u64>,
    node: usize,
}

impl Side {
    fn of(records: &[Record]) -> Self {
        let mut pool = words(&vec![0; 4 * (32 + RESERVE * records.len())]);
        let mut results = words(&[0; 34]);
        assert_eq!(native::lower_block(&mut pool, &records.concat(), &mut results), 0);
        Self { pool: pool.items()[..4 * results.items()[32] as usize].to_vec(), node: results.items()[0] as usize }
    }

    fn chosen(&self) -> native::Chosen<'_> {
        (&self.pool, self.pool.len() / 4, self.node)
    }
}

/// As many records as a block may have, each on results of others: through eight registers, which end in v0.
fn chain(operation: u64, arrangement: u64, exchanged: bool) -> Vec<Record> {
    let record = |k: u64| {
        let (n, m) = ((k + 7) % 8, (k + 3) % 8);
        if exchanged { [operation, arrangement, 0, k % 8, m, n] } else { [operation, arrangement, 0, k % 8, n, m] }
    };
    (0..MOST_RECORDS as u64).map(|k| record(k + 8 - MOST_RECORDS as u64 % 8 + 1)).collect()
}

/// Memory for a question, with a table of an entry for each gate that it may have at most.
fn lend(memory: &mut Memory, first: &Side, second: &Side) {
    let (number, gates, places) = native::question_room(first.chosen(), second.chosen());
    assert_eq!(number, 0);
    memory.fit(gates, places, gates);
}

/// The gates that are there twice: the table did not find the first.
fn lost(gates: &[u64]) -> usize {
    let mut words = gates.to_vec();
    words.sort_unstable();
    words.dedup();
    gates.len() - words.len()
}

/// The gates of a question and of plain Rust's, and the times of both.
fn question(name: &str, rounds: u64, first: &Side, second: &Side) {
    let mut memory = Memory::new();
    lend(&mut memory, first, second);
    let mut count = 0;
    let (mut ours, mut rust, mut gates, mut bytes) = (f64::MAX, f64::MAX, 0, 0);
    // in turn, so that both meet the same machine
    for _ in 0..rounds {
        ours = ours.min(best(1, || {
            memory.table.items_mut().fill(0);
            count = black_box(native::question(first.chosen(), second.chosen(), [127, 0], &mut memory)).1;
        }));
        rust = rust.min(best(1, || {
            let mut graph = Graph::new();
            black_box(graph.question((&first.pool, first.node), (&second.pool, second.node), 127, 0));
            (gates, bytes) = (graph.gates(), graph.bytes());
        }));
    }
    let nodes = (first.pool.len() + second.pool.len()) / 4;
    let lost = lost(&memory.graph.items()[..count]);
    println!("question-{name}-gates {count}\nquestion-{name}-rust-gates {gates}\nquestion-{name}-nodes {nodes}\nquestion-{name}-lost {lost}");
    println!("question-{name}-ms {:.2}\nquestion-{name}-rust-ms {:.2}", ours / 1e6, rust / 1e6);
    println!("question-{name}-gate {:.1}\nquestion-{name}-rust-gate {:.1}", ours / count as f64, rust / gates as f64);
    println!("question-{name}-table {}\nquestion-{name}-rust-bytes {bytes}", 8 * memory.table.items().len());
}

/// The gates of the terms of all forms, those that are there twice, and plain Rust's.
fn all_forms(all: &[Record]) {
    let mut memory = Memory::new();
    let (mut gates, mut twice, mut rust) = (0, 0, 0);
    for record in all {
        let (first, second) = (Side::of(&[*record]), Side::of(&[]));
        lend(&mut memory, &first, &second);
        let count = native::question(first.chosen(), second.chosen(), [127, 0], &mut memory).1;
        gates += count;
        twice += lost(&memory.graph.items()[..count]);
        let mut graph = Graph::new();
        graph.question((&first.pool, first.node), (&second.pool, second.node), 127, 0);
        rust += graph.gates();
    }
    println!("question-forms-gates {gates}\nquestion-forms-lost {twice}\nquestion-forms-rust-gates {rust}");
}

/// x * (y + z) and x * y + x * z, of w bits.
fn products(w: u64) -> [Side; 2] {
    [false, true].map(|apart| {
        let mut nodes: Vec<Node> = (0..32).map(|r| Node { kind: 1, width: 128, operands: [0; 3], data: [r, 0] }).collect();
        let mut add = |kind, width, operands, data| {
            nodes.push(Node { kind, width, operands, data });
            nodes.len() - 1
        };
        let [x, y, z] = [0, 1, 2].map(|r| add(16, w, [r, 0, 0], [w - 1, 0]));
        let made = if apart {
            let (p, q) = (add(5, w, [x, y, 0], [0; 2]), add(5, w, [x, z, 0], [0; 2]));
            add(3, w, [p, q, 0], [0; 2])
        } else {
            let p = add(3, w, [y, z, 0], [0; 2]);
            add(5, w, [x, p, 0], [0; 2])
        };
        let node = add(18, 128, [made, 0, 0], [0; 2]);
        Side { pool: pool_words(&nodes), node }
    })
}

/// The hints of a refutation, the graph of the two small pools with it.
fn hints(rounds: u64) {
    let [first, second] = products(4);
    let mut memory = Memory::new();
    lend(&mut memory, &first, &second);
    let (number, count, literal) = native::question(first.chosen(), second.chosen(), [127, 0], &mut memory);
    assert_eq!(number, 0);
    let graph = memory.graph.items()[..count].to_vec();
    let refutation = Cases::refute(&mut Rng(0x9e37_79b9_7f4a_7c15), &graph, literal as u32).expect("a law");
    assert_eq!(refused_step(&graph, literal as u32, &refutation), 0);
    memory.marks.fit(2 * (INPUTS + count));
    memory.starts.fit(refutation.len() / 2 + 1);
    let mut marks = vec![0; 2 * (INPUTS + count)];
    let mut hints = 0;
    let (mut ours, mut rust) = (f64::MAX, f64::MAX);
    for _ in 0..rounds {
        ours = ours.min(best(1, || {
            memory.table.items_mut().fill(0);
            assert_eq!(black_box(native::equal(first.chosen(), second.chosen(), [127, 0], &refutation, &mut memory)), (0, 0));
        }));
        rust = rust.min(best(1, || hints = black_box(graphs::hints_of_accepted(&graph, literal as u32, &refutation, &mut marks))));
    }
    println!("hints {hints}\nhint {:.2}\nhint-rust {:.2}", ours / hints as f64, rust / hints as f64);
}

pub fn main(rounds: u64, all: &[Record]) {
    let few = rounds.div_ceil(100).min(5);
    for (name, operation, arrangement) in [("sqrshl", 15, 1), ("sqrdmulh", 41, 5)] {
        question(name, few, &Side::of(&chain(operation, arrangement, false)), &Side::of(&[]));
    }
    question("sqadd", rounds.div_ceil(20), &Side::of(&chain(19, 1, false)), &Side::of(&chain(19, 1, true)));
    all_forms(all);
    hints(rounds.div_ceil(20));
}
