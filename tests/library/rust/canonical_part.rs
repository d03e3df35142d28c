//! Canonical pools (document 02, S-13) against a judge that numbers subtrees by a hash map, on an explicit walk: numbers and every word;
//! the second pass; blocks in which neighbours that are apart have been exchanged.
use std::collections::HashMap;

use crate::Sample;
use crate::blocks_part::record;
use crate::damage_part::damage;
use crate::judge::{NONE, Record, places, wanted};
use crate::native::{self, Chosen, words};
use crate::pools::{Node, Rng, grow, pool_words, valid};

/// What tells subtrees apart: kind, width, data, and the numbers of the operands.
type Shape = (u64, u64, [u64; 2], Vec<usize>);

/// The distinct subtrees of a root in the order in which a left-first walk finishes them.
fn canonised(pool: &[u64], root: usize) -> Vec<Node> {
    let mut known: HashMap<Shape, usize> = HashMap::new();
    let mut number: HashMap<usize, usize> = HashMap::new();
    let mut nodes: Vec<Node> = vec![];
    let mut stack = vec![root];
    while let Some(&n) = stack.last() {
        let mut node = Node::at(pool, n);
        let used = node.used().len();
        if let Some(&m) = node.used().iter().find(|m| !number.contains_key(m)) {
            stack.push(m);
            continue;
        }
        stack.pop();
        let operands: Vec<usize> = node.used().iter().map(|m| number[m]).collect();
        node.operands = [0; 3];
        node.operands[..used].copy_from_slice(&operands);
        let new = *known.entry((node.kind, node.width, node.data, operands)).or_insert(nodes.len());
        if new == nodes.len() {
            nodes.push(node);
        }
        number.insert(n, new);
    }
    nodes
}

/// 1, 5, 6 or 0, and the words.
fn judged((pool, count, root): Chosen, room: usize) -> (u64, Vec<u64>) {
    if !valid(pool, count) {
        return (1, vec![]);
    }
    if root >= count {
        return (5, vec![]);
    }
    let nodes = canonised(pool, root);
    if nodes.len() > room { (6, vec![]) } else { (0, pool_words(&nodes)) }
}

/// The library's answer is the judge's, and canonising the answer changes nothing. Returns the number and the count.
fn compare(from: Chosen, size: usize) -> (u64, usize) {
    let old: Vec<u64> = (0..size as u64).map(|k| k.wrapping_mul(0x9e37_79b9_7f4a_7c15)).collect();
    let mut out = words(&old);
    let (number, count) = native::canonical(from, &mut out);
    let (want, all) = judged(from, places(size));
    assert_eq!((number, count), (want, all.len() / 4), "{from:?} {size}");
    assert!(out.items()[..all.len()] == all, "{from:?}");
    assert!(out.items()[all.len()..] == old[all.len()..], "a word past the count changed");
    if number == 0 {
        let mut again = words(&vec![0; all.len()]);
        assert_eq!(native::canonical((&all, count, count - 1), &mut again), (0, count));
        assert!(again.items() == all, "a second time changes something");
    }
    (number, count)
}

/// Up to `most` nodes, many of them a second time.
fn nodes(r: &mut Rng, most: u64) -> Vec<Node> {
    let mut nodes: Vec<Node> = vec![];
    let count = 1 + r.below(most) as usize;
    while nodes.len() < count {
        if !nodes.is_empty() && r.below(3) == 0 {
            let again = r.one_of(&nodes);
            nodes.push(again);
        } else {
            nodes.extend(grow(r, &nodes));
        }
    }
    nodes
}

/// A pool, its count and a root that is often its last node.
fn case(r: &mut Rng, most: u64) -> (Vec<u64>, usize, usize) {
    let nodes = nodes(r, most);
    let (mut pool, mut count) = (pool_words(&nodes), nodes.len());
    pool.extend((0..r.below(7)).map(|k| k << 33));
    if r.below(8) == 0 {
        damage(r, &mut pool, &mut count);
    }
    let root = match r.below(16) {
        0 => r.one_of(&[count, count.wrapping_add(1), NONE, usize::MAX]),
        1..=5 => r.below(nodes.len() as u64) as usize,
        _ => nodes.len() - 1,
    };
    (pool, count, root)
}

/// Exact room for the answer, one place less, or any.
fn room(r: &mut Rng, from: Chosen) -> usize {
    let exact = judged(from, 65535).1.len();
    match r.below(6) {
        0 => exact.saturating_sub(1),
        1 => r.below(exact as u64 + 1) as usize,
        2 => exact + r.below(90) as usize,
        _ => exact,
    }
}

fn var(register: u64) -> Node {
    Node { kind: 1, width: 128, operands: [0; 3], data: [register, 0] }
}

fn sum(a: usize, b: usize) -> Node {
    Node { kind: 3, width: 128, operands: [a, b, 0], data: [0; 2] }
}

fn constant(low: u64, high: u64) -> Node {
    Node { kind: 2, width: 128, operands: [0; 3], data: [low, high] }
}

/// Pools of 65,535 nodes, and the smallest: a chain, doubling terms, equal nodes, many constants under one sum, single nodes.
fn extremes(r: &mut Rng) -> usize {
    let chain = (0..65535).map(|n| if n == 0 { var(7) } else { sum(n - 1, 0) }).collect();
    let doubling = (0..65535).map(|n| if n == 0 { var(0) } else { sum(n - 1, n - 1) }).collect();
    let equal = (0..65535).map(|n| if n < 2 { var(3) } else { sum(n % 2, (n + 1) % 2) }).collect();
    // constants that are alike in all but a few bits, in each place of their words, and the sums that keep them
    let alike = |shift: u32| -> Vec<Node> {
        let low = (0..32767u64).map(|k| if shift < 64 { constant(k << shift, 0) } else { constant(0, k << (shift - 64)) });
        low.chain([sum(0, 1)]).chain((1..32766).map(|k| sum(32766 + k, k + 1))).collect()
    };
    let mut pools: Vec<Vec<Node>> = vec![chain, doubling, equal, vec![var(31)], vec![constant(1, 1)]];
    pools.extend([0, 16, 32, 48, 64, 96, 112].map(alike));
    let some = |r: &mut Rng, n: usize| r.below(n as u64) as usize;
    pools.push((0..65535).map(|n| if n < 32 { var(n as u64) } else { sum(some(r, n), some(r, n)) }).collect());
    for nodes in &pools {
        let pool = pool_words(nodes);
        let root = nodes.len() - 1;
        assert_eq!(compare((&pool, nodes.len(), root), 4 * nodes.len()).0, 0);
    }
    pools.len()
}

/// The registers that a record reads, and the one that it writes.
fn reads(&[operation, arrangement, _, d, n, m]: &Record) -> Vec<u64> {
    let [of_d, _, of_m] = wanted(operation, arrangement);
    [of_d.map(|_| d), Some(n), of_m.map(|_| m)].into_iter().flatten().collect()
}

fn apart(a: &Record, b: &Record) -> bool {
    a[3] != b[3] && !reads(a).contains(&b[3]) && !reads(b).contains(&a[3])
}

/// The canonical pools of all 32 registers.
fn registers(records: &[Record]) -> Vec<Vec<u64>> {
    let mut pool = words(&vec![0; 4 * (32 + 768 * records.len())]);
    let mut results = words(&[0; 34]);
    assert_eq!(native::lower_block(&mut pool, &records.concat(), &mut results), 0);
    let count = results.items()[32] as usize;
    let one = |&node: &u64| {
        let mut out = words(&vec![0; 4 * count]);
        let (number, after) = native::canonical((pool.items(), count, node as usize), &mut out);
        assert_eq!(number, 0);
        out.items()[..4 * after].to_vec()
    };
    results.items()[..32].iter().map(one).collect()
}

/// Blocks of 30 records: after each of some legal exchanges all 32 canonical pools are the same. Returns the exchanges made.
fn exchanges(r: &mut Rng) -> u64 {
    let mut records: Vec<Record> = (0..30).map(|_| record(r, 32)).collect();
    let before = registers(&records);
    let mut made = 0;
    for _ in 0..12 {
        let at = r.below(29) as usize;
        if apart(&records[at], &records[at + 1]) {
            records.swap(at, at + 1);
            made += 1;
        }
    }
    assert!(registers(&records) == before, "{records:?}");
    made
}

pub fn main(count: u64) {
    let mut r = Rng(0x1234_5678_9abc_def1);
    let mut seen = [0u64; 7];
    for _ in 0..count {
        let most = r.one_of(&[1, 4, 20, 60]);
        let (pool, many, root) = case(&mut r, most);
        let size = room(&mut r, (&pool, many, root));
        seen[compare((&pool, many, root), size).0 as usize] += 1;
    }
    assert!([0, 1, 5, 6].iter().all(|&k| seen[k] * 200 > count), "every number comes up: {seen:?}");
    println!("canonical: {count} pools, by number {seen:?}: numbers and every word are the judge's, and a second pass changes nothing");
    println!("canonical: {} pools at the limits too, most of 65,535 nodes", extremes(&mut r));
    let blocks = 4 + count / 2000;
    let made: u64 = (0..blocks).map(|_| exchanges(&mut r)).sum();
    assert!(made > 0);
    println!("canonical: {blocks} blocks of 30 records: {made} legal exchanges leave all 32 canonical pools as they were");
}

/// The sample for tests/library/stored/canonical: the cases, and what the judge answers.
pub fn stored(count: u64) -> Sample {
    let mut r = Rng(0x0bad_cafe_1357_9bdf);
    let (mut input, mut answers) = (String::new(), String::new());
    for _ in 0..count {
        let (pool, many, root) = case(&mut r, 12);
        let size = room(&mut r, (&pool, many, root));
        let body: Vec<String> = pool.iter().map(|w| format!("{w:x}")).collect();
        input += &format!("{} {many} {root} {size} {}\n", pool.len(), body.join(" "));
        let (number, all) = judged((&pool, many, root), places(size));
        let hash = all.iter().fold(0xcbf2_9ce4_8422_2325u64, |h, w| (h ^ w).wrapping_mul(0x100_0000_01b3));
        answers += &format!("{number} {} {hash:016x}\n", all.len() / 4);
    }
    Sample { input, answers }
}
