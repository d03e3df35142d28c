//! Questions: the bits of all forms, of random pools and of pairs of blocks against the runner and the values of the nodes.
use crate::blocks_part::record;
use crate::evaluate;
use crate::evaluate_part;
use crate::forms;
use crate::gates::{Truths, operands, output};
use crate::judge::Record;
use crate::native::{self, Chosen, Memory, words};
use crate::pools::{Node, Rng, grow, pool_words};
use crate::run_part::corners;

pub type Starts = [[u128; 32]; 64];

/// A pool, its count and a node.
#[derive(Clone, Debug)]
pub struct Side {
    pub pool: Vec<u64>,
    pub count: usize,
    pub node: usize,
}

impl Side {
    pub fn of(nodes: &[Node], node: usize) -> Self {
        Self { pool: pool_words(nodes), count: nodes.len(), node }
    }

    /// A register after a block.
    pub fn of_block(records: &[Record], register: usize) -> Self {
        let mut pool = words(&vec![0; 4 * (32 + 768 * records.len())]);
        let mut results = words(&[0; 34]);
        assert_eq!(native::lower_block(&mut pool, &records.concat(), &mut results), 0);
        let [count, node] = [32, register].map(|k| results.items()[k] as usize);
        Self { pool: pool.items()[..4 * count].to_vec(), count, node }
    }

    pub fn chosen(&self) -> Chosen<'_> {
        (&self.pool, self.count, self.node)
    }

    pub fn value(&self, start: &[u128; 32]) -> u128 {
        evaluate::low(evaluate::values(&self.pool, self.count, start)[self.node])
    }
}

/// The most gates of a node, by its kind and the bits that it works on.
fn most_gates(pool: &[u64], n: usize) -> usize {
    let node = Node::at(pool, n);
    let w = match node.kind {
        12..=14 => Node::at(pool, node.operands[0]).width,
        _ => node.width,
    } as usize;
    match node.kind {
        3 => 7 * w,
        4 => 10 * w,
        5 => 10 * w * w,
        6..=8 | 15 => 3 * w,
        9..=11 => 31 * w,
        12 => 4 * w,
        13 => 5 * w,
        14 => 5 * w + 6,
        _ => 0,
    }
}

/// The gates and the places that a question on two valid pools needs.
pub fn room(first: &Side, second: &Side) -> (usize, usize) {
    let gates = |side: &Side| (0..side.count).map(|n| most_gates(&side.pool, n)).sum::<usize>();
    (gates(first) + gates(second) + 4 * 128, 129 * (first.count + second.count + 1))
}

/// The literal of a question that is asked rightly; the graph is in the memory. Gates come after their operands.
pub fn ask(first: &Side, second: &Side, cut: [usize; 2], memory: &mut Memory) -> (usize, u32) {
    let (gates, places) = room(first, second);
    assert_eq!(native::question_room(first.chosen(), second.chosen()), (0, gates, places));
    memory.fit(gates, places, gates);
    let (number, count, literal) = native::question(first.chosen(), second.chosen(), cut, memory);
    assert_eq!(number, 0);
    assert!(count <= gates);
    for (gate, &word) in memory.graph.items()[..count].iter().enumerate() {
        assert!(operands(word).into_iter().all(|operand| operand < output(gate)), "gate {gate} comes before an operand");
    }
    assert!(literal < u64::from(output(count)));
    (count, literal as u32)
}

/// The starts at which the literal is true.
pub fn true_at(count: usize, literal: u32, starts: &Starts, memory: &Memory) -> u64 {
    Truths::of(&memory.graph.items()[..count], starts).at(literal)
}

/// The register that holds the value that a term is compared with: no record and no pool here reads it.
const FREE: usize = 31;

/// A term against the unchanged register 31, over all 128 bits. If register 31 has the term's value, the literal is false, so that each of the 128 bits
/// is that of the value; with bit j changed it is true, for each j. Returns the number of gates.
fn bits_are(term: &Side, starts: &mut Starts, values: &[u128], memory: &mut Memory) -> usize {
    let free = Side::of_block(&[], FREE);
    let (count, literal) = ask(term, &free, [127, 0], memory);
    for (start, value) in starts.iter_mut().zip(values) {
        start[FREE] = *value;
    }
    assert_eq!(true_at(count, literal, starts, memory), 0, "a bit is not that of the value");
    for half in 0..2 {
        for (j, (start, value)) in starts.iter_mut().zip(values).enumerate() {
            start[FREE] = value ^ 1 << (64 * half + j);
        }
        assert_eq!(true_at(count, literal, starts, memory), u64::MAX, "a bit of the value does not count");
    }
    count
}

/// Every legal form at 64 starts against the runner. Returns the forms and the gates.
fn all_forms(r: &mut Rng, memory: &mut Memory) -> (usize, usize) {
    let all = forms::all();
    let mut gates = 0;
    for form in &all {
        let record = [form.op, form.arr, form.imm, form.d, form.n, form.m].map(u64::from);
        let mut starts: Starts = std::array::from_fn(|_| corners(r));
        let values = starts.map(|start| {
            let (number, _, after) = native::run_block(&start, &record);
            assert_eq!(number, 0);
            after[record[3] as usize]
        });
        gates += bits_are(&Side::of_block(&[record], record[3] as usize), &mut starts, &values, memory);
    }
    (all.len(), gates)
}

/// A node of any kind and width as one of 128 bits.
fn widened(nodes: &mut Vec<Node>, node: usize) -> usize {
    let width = nodes[node].width;
    let mut add = |kind, width, operands, data| {
        nodes.push(Node { kind, width, operands, data });
        nodes.len() - 1
    };
    match width {
        0 => {
            let [one, zero] = [1, 0].map(|v| add(2, 128, [0; 3], [v, 0]));
            add(15, 128, [node, one, zero], [0; 2])
        }
        128 => node,
        // bit 128 instead of bit 0
        129 => add(16, 128, [node, 0, 0], [128, 1]),
        _ => add(18, 128, [node, 0, 0], [0; 2]),
    }
}

/// A random pool without register 31, and a node of it, or 128 bits of it.
fn random_side(r: &mut Rng, most: u64) -> Side {
    let mut nodes: Vec<Node> = vec![];
    let count = 2 + r.below(most) as usize;
    while nodes.len() < count {
        nodes.extend(grow(r, &nodes).filter(|node| node.kind != 1 || node.data[0] != FREE as u64));
    }
    let last = nodes.len() - 1 - r.below(nodes.len().min(4) as u64) as usize;
    let node = widened(&mut nodes, last);
    Side::of(&nodes, node)
}

/// A random pool's node of any kind and width against its value, with an empty table and with any other.
fn pool_bits(r: &mut Rng, memory: &mut Memory) {
    let term = random_side(r, 14);
    let mut starts: Starts = std::array::from_fn(|_| if r.below(2) == 0 { corners(r) } else { evaluate_part::start(r) });
    let values = starts.map(|start| term.value(&start));
    bits_are(&term, &mut starts, &values, memory);
    dirty(r, memory);
    starts.iter_mut().zip(values).for_each(|(start, value)| start[FREE] = value);
    let (number, count, literal) = native::question(term.chosen(), Side::of_block(&[], FREE).chosen(), [127, 0], memory);
    assert_eq!(number, 0);
    assert_eq!(true_at(count, literal as u32, &starts, memory), 0, "a bit is not that of the value, by the table");
}

/// A table of few entries or many, each of them a gate that may be there, none, or any number.
pub fn dirty(r: &mut Rng, memory: &mut Memory) {
    let many = memory.graph.items().len() as u64 + 2;
    let entries = r.one_of(&[0, 1, 7, many / 4, many]);
    memory.table.fit(entries as usize);
    for entry in memory.table.items_mut() {
        *entry = match r.below(8) {
            0 => 0,
            1 => r.next(),
            2 => r.one_of(&[u64::MAX, 1 << 32, many]),
            _ => r.below(many),
        };
    }
}

/// Two blocks, a register of each and any cut: the literal is true where the runs leave different bits. Returns whether it can be.
fn blocks(r: &mut Rng, turn: u64, memory: &mut Memory) -> bool {
    let first: Vec<Record> = (0..r.below(4)).map(|_| record(r, 5)).collect();
    let mut second = first.clone();
    if turn % 2 == 0 {
        second.push(record(r, 5));
    }
    let [x, y] = if turn % 3 == 0 { [r.below(6), r.below(6)] } else { [r.below(6); 2] }.map(|k| k as usize);
    let hi = r.below(128) as usize;
    let lo = r.below(hi as u64 + 1) as usize;
    let (count, literal) = ask(&Side::of_block(&first, x), &Side::of_block(&second, y), [hi, lo], memory);
    let starts: Starts = std::array::from_fn(|_| corners(r));
    let after = |records: &[Record], register: usize, start| native::run_block(start, &records.concat()).2[register] << (127 - hi) >> (127 - hi + lo);
    let differ = starts.iter().map(|start| after(&first, x, start) != after(&second, y, start));
    let want = differ.enumerate().fold(0, |all, (s, differ)| all | u64::from(differ) << s);
    assert_eq!(true_at(count, literal, &starts, memory), want, "{first:?} {second:?} {x} {y} {hi} {lo}");
    want != 0
}

pub fn main(count: u64) {
    let mut r = Rng(0x7137_4491_b5c0_fbcf);
    let mut memory = Memory::new();
    let (forms, gates) = all_forms(&mut r, &mut memory);
    assert_eq!(forms, 2966);
    println!("gates: the bits of {forms} forms, {gates} gates, are the runner's at 64 starts each, and each of the 128 bits counts");
    let pools = count / 20 + 50;
    (0..pools).for_each(|_| pool_bits(&mut r, &mut memory));
    let pairs = count / 50 + 50;
    let differ = (0..pairs).filter(|&turn| blocks(&mut r, turn, &mut memory)).count() as u64;
    assert!(0 < differ && differ < pairs);
    println!("gates: the bits of {pools} nodes of random pools are those of their values; {pairs} pairs of blocks: the literal is true where the runs differ");
}
