//! Two pools as one (document 02, S-11): numbers, every word and values against a judge that is written from the paper. Damaged pools
//! and wrong beginnings are among the pools, and third buffers of exact room and of one place less.
use crate::Sample;
use crate::arm;
use crate::blocks_part::{oracle_record, record};
use crate::damage_part::damage;
use crate::evaluate;
use crate::judge::{NONE, Record, places};
use crate::native::{self, Words, words};
use crate::pools::{Node, Rng, grow, pool_words, valid};

fn register(r: u64) -> Node {
    Node { kind: 1, width: 128, operands: [0; 3], data: [r, 0] }
}

/// The check is passed, v0 to v31 are nodes 0 to 31, and no other node is a Var.
fn begins(pool: &[u64], count: usize) -> bool {
    let rule = |n: usize| {
        let node = Node::at(pool, n);
        if n < 32 { node.kind == 1 && node.data[0] == n as u64 } else { node.kind != 1 }
    };
    valid(pool, count) && count >= 32 && (0..count).all(rule)
}

/// 1, 1, 5, 6 or 0.
fn number(first: native::Chosen, second: native::Chosen, room: usize) -> u64 {
    let term = |(pool, count, n): native::Chosen| n < count && Node::at(pool, n).width == 128;
    if !begins(first.0, first.1) || !begins(second.0, second.1) {
        1
    } else if !term(first) || !term(second) {
        5
    } else if room < first.1 + second.1 - 31 {
        6
    } else {
        0
    }
}

/// The words of the third pool.
fn joined((first, c, a): native::Chosen, (second, d, b): native::Chosen) -> Vec<u64> {
    let moved = |m: usize| if m < 32 { m } else { c + m - 32 };
    let mut nodes: Vec<Node> = (0..c).map(|n| Node::at(first, n)).collect();
    for m in 32..d {
        let mut node = Node::at(second, m);
        let used = node.used().len();
        for operand in &mut node.operands[..used] {
            *operand = moved(*operand);
        }
        nodes.push(node);
    }
    nodes.push(Node { kind: 12, width: 0, operands: [a, moved(b), 0], data: [0; 2] });
    pool_words(&nodes)
}

/// The registers and up to `most` nodes more, of which none is a Var.
fn good(r: &mut Rng, most: u64) -> Vec<Node> {
    let mut nodes: Vec<Node> = (0..32).map(register).collect();
    let count = 32 + r.below(most + 1) as usize;
    while nodes.len() < count {
        nodes.extend(grow(r, &nodes).filter(|node| node.kind != 1));
    }
    nodes
}

/// A beginning that is not one: two registers exchanged, one that is a constant, one missing, a further Var, or any nodes at all.
fn spoil_beginning(r: &mut Rng, nodes: &mut Vec<Node>) {
    let at = r.below(32) as usize;
    match r.below(5) {
        0 => nodes.swap(at, (at + 1) % 32),
        1 => nodes[at] = Node { kind: 2, width: 128, operands: [0; 3], data: [at as u64, 0] },
        2 => nodes.truncate(31),
        3 => nodes.push(register(at as u64)),
        _ => {
            nodes.clear();
            while nodes.len() < 40 {
                nodes.extend(grow(r, nodes));
            }
        }
    }
}

/// A pool, its count and a node that is often one of 128 bits.
fn case(r: &mut Rng, most: u64) -> (Vec<u64>, usize, usize) {
    let mut nodes = good(r, most);
    if r.below(12) == 0 {
        spoil_beginning(r, &mut nodes);
    }
    let (mut pool, mut count) = (pool_words(&nodes), nodes.len());
    pool.extend((0..r.below(7)).map(|k| k << 40));
    if r.below(8) == 0 {
        damage(r, &mut pool, &mut count);
    }
    let wide: Vec<usize> = (0..nodes.len()).filter(|&n| nodes[n].width == 128).collect();
    let node = match r.below(24) {
        0 => r.one_of(&[count, count.wrapping_add(1), NONE, usize::MAX]),
        1 => r.below(nodes.len() as u64 + 1) as usize,
        _ if wide.is_empty() => 0,
        _ => r.one_of(&wide),
    };
    (pool, count, node)
}

/// Words of a third buffer: room, exact room, one place less, little, or none.
fn room(r: &mut Rng, c: usize, d: usize) -> usize {
    let exact = 4 * c.saturating_add(d).saturating_sub(31).min(200);
    match r.below(8) {
        0 => exact.saturating_sub(1),
        1 => exact.saturating_sub(4) + r.below(4) as usize,
        2 => r.below(exact as u64 + 1) as usize,
        3 => 0,
        4 => exact + 4 * r.below(20) as usize,
        _ => exact + r.below(4) as usize,
    }
}

fn compare(first: native::Chosen, second: native::Chosen, out: &mut Words) -> u64 {
    let old = out.items().to_vec();
    let answer = native::join(first, second, out);
    let want = number(first, second, places(old.len()));
    if want != 0 {
        assert_eq!(answer, (want, NONE, 0), "{first:?} {second:?} {}", old.len());
        assert!(out.items() == old, "a refused join wrote");
        return want;
    }
    let all = joined(first, second);
    assert_eq!(answer, (0, all.len() / 4 - 1, all.len() / 4));
    assert!(out.items()[..all.len()] == all, "{first:?} {second:?}");
    assert!(out.items()[all.len()..] == old[all.len()..], "a word past the count changed");
    assert!(native::pool_check(out.items(), answer.2));
    0
}

/// A block's pool with its count, and the nodes of the registers.
fn lowered(records: &[Record]) -> (Vec<u64>, usize, Vec<usize>) {
    let mut pool = words(&vec![0; 4 * (32 + 768 * records.len())]);
    let mut results = words(&[0; 34]);
    assert_eq!(native::lower_block(&mut pool, &records.concat(), &mut results), 0);
    let nodes = results.items()[..32].iter().map(|&n| n as usize).collect();
    (pool.items().to_vec(), results.items()[32] as usize, nodes)
}

/// Two blocks of 40 records: the Eq's value is that of comparing the registers after the Arm runs. Returns whether it was 1.
fn blocks(r: &mut Rng, turn: u64) -> bool {
    let first: Vec<Record> = (0..40).map(|_| record(r, 32)).collect();
    let mut second = first.clone();
    if turn % 2 == 0 {
        let at = r.below(40) as usize;
        second[at] = record(r, 32);
    }
    let (x, y) = if turn % 3 == 0 { (r.below(32) as usize, r.below(32) as usize) } else { (first[39][3] as usize, first[39][3] as usize) };
    let (pool, c, nodes) = lowered(&first);
    let (other, d, others) = lowered(&second);
    let mut out = words(&vec![0; 4 * (c + d - 31)]);
    assert_eq!(compare((&pool, c, nodes[x]), (&other, d, others[y]), &mut out), 0, "pools of accepted blocks are joined");
    let start: [u128; 32] = std::array::from_fn(|_| r.wide() & r.one_of(&[u128::MAX, 0, 1 << 127, 0x8000_7fff_0000_ffff, 0xff]));
    let values = evaluate::values(out.items(), c + d - 31, &start);
    let run = |records: &[Record]| {
        let mut after = start;
        arm::run(&records.iter().map(oracle_record).collect::<Vec<_>>(), &mut after);
        after
    };
    let (after, other_after) = (run(&first), run(&second));
    let moved = |m: usize| if m < 32 { m } else { c + m - 32 };
    assert_eq!(evaluate::low(values[nodes[x]]), after[x]);
    assert_eq!(evaluate::low(values[moved(others[y])]), other_after[y]);
    assert_eq!(evaluate::low(values[c + d - 32]), u128::from(after[x] == other_after[y]));
    after[x] == other_after[y]
}

pub fn main(count: u64) {
    let mut r = Rng(0x51af_d7ed_558c_cd25);
    let mut seen = [0u64; 7];
    let mut out = words(&[]);
    for _ in 0..count {
        let most = r.one_of(&[0, 3, 20, 60]);
        let (first, c, a) = case(&mut r, most);
        let (second, d, b) = case(&mut r, most);
        let size = room(&mut r, c, d);
        out.set(&(0..size as u64).map(|k| k.wrapping_mul(0x9e37_79b9_7f4a_7c15)).collect::<Vec<_>>());
        seen[compare((&first, c, a), (&second, d, b), &mut out) as usize] += 1;
    }
    assert!([0, 1, 5, 6].iter().all(|&k| seen[k] * 200 > count), "every number comes up: {seen:?}");
    let turns = 20 + count / 1000;
    let equal = (0..turns).filter(|&turn| blocks(&mut r, turn)).count();
    assert!(0 < equal && (equal as u64) < turns, "some registers are equal and some differ");
    println!("join: {count} pairs of pools, by number {seen:?}: numbers and every word are the judge's");
    println!("join: {turns} pairs of blocks of 40 records: the Eq is 1 if the registers after the Arm runs are equal ({equal} times), else 0");
}

/// The sample for tests/library/stored/join: the cases, and what the judge answers.
pub fn stored(count: u64) -> Sample {
    let mut r = Rng(0x1d8e_4e27_c47d_124f);
    let (mut input, mut answers) = (String::new(), String::new());
    for _ in 0..count {
        let (first, c, a) = case(&mut r, 9);
        let (second, d, b) = case(&mut r, 9);
        let size = room(&mut r, c, d);
        let (one, two) = ((&first[..], c, a), (&second[..], d, b));
        for (pool, count, node) in [one, two] {
            let body: Vec<String> = pool.iter().map(|w| format!("{w:x}")).collect();
            input += &format!("{} {count} {node} {}\n", pool.len(), body.join(" "));
        }
        input += &format!("{size}\n");
        match number(one, two, places(size)) {
            0 => {
                let all = joined(one, two);
                let hash = all.iter().fold(0xcbf2_9ce4_8422_2325u64, |h, w| (h ^ w).wrapping_mul(0x100_0000_01b3));
                answers += &format!("0 {} {} {hash:016x}\n", all.len() / 4 - 1, all.len() / 4);
            }
            refused => answers += &format!("{refused} {NONE} 0\n"),
        }
    }
    Sample { input, answers }
}
