//! Random blocks: each register's term by the structural hash of `oracle block`, its text's length, and its value against
//! the oracle's table on integers. Some blocks are bad or too long, some pools too small.
use crate::arm;
use crate::dag::{Dag, fnv};
use crate::evaluate;
use crate::forms;
use crate::forms_part::hash;
use crate::judge::{self, MOST_RECORDS, RESERVE, Record, block_number, form_number, immediates, most_m};
use crate::native::{self, Words, bytes, words};
use crate::pools::{Node, Rng, valid};
use crate::run;

const ENTRIES: usize = 34;

/// A legal record on registers below `registers`.
pub fn record(r: &mut Rng, registers: u64) -> Record {
    loop {
        let (operation, arrangement) = (1 + r.below(67), r.below(7));
        // i is looked at once the form is known to be there
        if form_number(operation, arrangement, 0) == 3 {
            continue;
        }
        let (least, greatest) = immediates(operation, arrangement);
        let i = least + r.below(greatest - least + 1);
        let m = r.below(registers.min(most_m(operation, arrangement) + 1));
        return [operation, arrangement, i, r.below(registers), r.below(registers), m];
    }
}

/// One number of one record made bad, or perhaps good.
pub fn spoil(r: &mut Rng, records: &mut [Record]) {
    if records.is_empty() {
        return;
    }
    let at = r.below(records.len() as u64) as usize;
    let field = r.below(6) as usize;
    records[at][field] = match r.below(4) {
        0 => r.below(80),
        1 => r.one_of(&[0, 1, 7, 31, 32, 63, 64, 65, 67, 68, 255, 65535]),
        2 => r.below(65536),
        _ => records[at][field] + 1,
    };
}

pub fn oracle_record(r: &Record) -> forms::Record {
    let [op, arr, imm, d, n, m] = r.map(|x| x as u16);
    forms::Record { op, arr, imm, d, n, m }
}

struct Seen {
    records: u64,
    refused: u64,
    nodes: u64,
    terms: u64,
    texts: u64,
}

/// A refusal: 32 times no node, count 0, the position, and no word of the pool.
pub fn refused(pool: &Words, old: &[u64], results: &Words, entries: usize, position: usize) {
    assert!(pool.items() == old, "a refused block wrote to the pool");
    let mut want = vec![65535; 32];
    want.extend([0, position as u64]);
    want.extend(vec![TAIL; entries - ENTRIES]);
    assert!(results.items() == want, "results of a refused block: {:?}", results.items());
}

const TAIL: u64 = 0xdead_beef;

/// The registers of one of the Rust's terms.
fn beneath(dag: &Dag, root: u32) -> u64 {
    let mut sets: Vec<u64> = vec![];
    for node in &dag.nodes[..=root as usize] {
        let own = if node.kind == 1 { 1 << node.data[0] } else { 0 };
        sets.push(node.used().iter().fold(own, |set, &m| set | sets[m as usize]));
    }
    sets[root as usize]
}

fn accepted(r: &mut Rng, pool: &Words, old: &[u64], results: &Words, records: &[Record], seen: &mut Seen) {
    let block: Vec<forms::Record> = records.iter().map(oracle_record).collect();
    assert_eq!(forms::check_block(&block), (0, 0));
    let entries = results.items();
    let (count, position) = (entries[32] as usize, entries[33]);
    assert!(position == 0 && entries[ENTRIES..].iter().all(|&x| x == TAIL));
    let new = pool.items();
    assert!(count <= 32 + RESERVE * records.len() && valid(new, count), "count {count}");
    assert!(new[4 * count..] == old[4 * count..], "a word past the count changed");
    let mut hashes = Vec::with_capacity(count);
    for n in 0..count {
        hashes.push(hash(&Node::at(new, n), &hashes));
    }
    let mut dag = Dag::default();
    let map = run::block_map(&mut dag, &block);
    for (register, &root) in map.iter().enumerate() {
        assert_eq!(hashes[entries[register] as usize], dag.hashes[root as usize], "register {register} of {records:?}");
    }
    let register = r.below(32) as usize;
    let (node, root) = (entries[register] as usize, map[register]);
    assert_eq!(native::registers_of(new, count, node), (0, beneath(&dag, root)), "register {register} of {records:?}");
    let length = dag.lengths[root as usize];
    let ceiling = 1 << 17;
    assert_eq!(native::text_length(new, count, node, ceiling), (0, length.min(u64::from(ceiling) + 1)));
    if length <= 65536 {
        let mut buffer = bytes(65536);
        assert_eq!(native::write_text(new, count, node, &mut buffer), (0, length as usize));
        assert_eq!(fnv(&buffer.items()[..length as usize]), fnv(run::display(&dag, root).as_bytes()));
        seen.texts += 1;
    }
    let start: [u128; 32] = std::array::from_fn(|_| r.wide() & r.one_of(&[u128::MAX, 0, 0x80ff_7f00_8000_7fff_ffff_0000_8000_0001, 1 << 127, 0xff]));
    let values = evaluate::values(new, count, &start);
    let mut after = start;
    arm::run(&block, &mut after);
    for (register, value) in after.iter().enumerate() {
        assert_eq!(evaluate::low(values[entries[register] as usize]), *value, "register {register} of {records:?} at {start:x?}");
    }
    seen.nodes += count as u64;
    seen.terms += 32;
}

/// Lowers a block in a pool of `size` words; the answer is the judge's, and for 0 the Rust's.
fn try_block(r: &mut Rng, pool: &mut Words, records: &[Record], size: usize, seen: &mut Seen) {
    let old: Vec<u64> = (0..size).map(|_| r.next()).collect();
    pool.set(&old);
    let mut flat: Vec<u64> = records.concat();
    // numbers after the last whole record are not read
    flat.extend((0..r.below(6)).map(|_| 99));
    let entries = ENTRIES + r.below(4) as usize;
    let mut results = words(&vec![TAIL; entries]);
    let number = native::lower_block(pool, &flat, &mut results);
    let (want, position) = block_number(size, records);
    assert_eq!(number, want, "{records:?}");
    if number == 0 {
        accepted(r, pool, &old, &results, records, seen);
        seen.records += records.len() as u64;
    } else {
        refused(pool, &old, &results, entries, position);
        seen.refused += 1;
    }
}

/// Elements of 16 bits (4S) of v0 to v15 and of 32 bits (2D) of any register are taken, others get 7 at their position.
fn try_elements(r: &mut Rng, pool: &mut Words, seen: &mut Seen) {
    for operation in 48..=53 {
        for (arrangement, last) in [(5, 15), (6, 31)] {
            for m in (0..=33).chain([63, 255, 1 << 32, u64::MAX]) {
                let records = [record(r, 32), [operation, arrangement, r.below(4), 0, 1, m], record(r, 32)];
                assert_eq!(block_number(4 * 65535, &records), if m <= last { (0, 0) } else { (7, 1) });
                try_block(r, pool, &records, 4 * (32 + RESERVE * records.len()), seen);
            }
        }
    }
}

/// 85 records pass in 65,312 places; one word less is one place less and gets 6; 86 get 8 in the largest pool.
fn try_sizes(r: &mut Rng, pool: &mut Words, seen: &mut Seen) {
    assert_eq!(32 + RESERVE * MOST_RECORDS, 65_312);
    for (long, words, want) in [(0, 4 * 32, 0), (0, 4 * 32 - 1, 6), (1, 4 * 800, 0), (1, 4 * 800 - 1, 6), (85, 4 * 65_312, 0), (85, 4 * 65_312 - 1, 6), (86, 4 * 65_535, 8)] {
        let records: Vec<Record> = (0..long).map(|_| record(r, 32)).collect();
        assert_eq!(block_number(words, &records), (want, 0));
        try_block(r, pool, &records, words, seen);
    }
}

pub fn main(count: u64) {
    let mut r = Rng(0x0fed_cba9_8765_4321);
    let mut seen = Seen { records: 0, refused: 0, nodes: 0, terms: 0, texts: 0 };
    let mut pool = words(&[]);
    try_elements(&mut r, &mut pool, &mut seen);
    try_sizes(&mut r, &mut pool, &mut seen);
    for turn in 0..count {
        let long = if turn % 97 == 96 { 86 + r.below(9) } else { turn % 86 };
        let registers = r.one_of(&[2, 5, 32]);
        let mut records: Vec<Record> = (0..long).map(|_| record(&mut r, registers)).collect();
        if turn % 5 == 4 {
            spoil(&mut r, &mut records);
        }
        let places = 32 + RESERVE * long as usize;
        let size = if turn % 11 == 10 { 4 * places - 1 } else { 4 * places + r.below(9) as usize };
        try_block(&mut r, &mut pool, &records, size, &mut seen);
    }
    assert!(seen.refused > 0 && seen.texts > 0, "blocks: {} refused, {} texts", seen.refused, seen.texts);
    println!(
        "blocks: {count} blocks, one of each element of each register and some at the limits of room and length, {} refused; {} records, {} nodes: {} terms of registers equal the Rust's by hash, their values the table's at one start each; the registers of one term of each block, and {} texts equal",
        seen.refused, seen.records, seen.nodes, seen.terms, seen.texts
    );
}
