//! Document 01's table and numbers, written once more in Rust: what each operation has to answer.
use crate::pools::{Node, valid};

pub const NONE: usize = 65535;
pub const RESERVE: usize = 768;
pub const MOST_RECORDS: usize = 85;

/// Operation, arrangement, i, d, n, m.
pub type Record = [u64; 6];

const LANE: [u64; 7] = [8, 8, 16, 16, 32, 32, 64];

pub fn view(arrangement: u64) -> u64 {
    [64, 128, 64, 128, 64, 128, 128][arrangement as usize]
}

fn has_form(operation: u64, arrangement: u64) -> bool {
    match operation {
        1..=22 | 38 | 39 | 54 | 55 => arrangement <= 6,
        23..=37 | 56..=59 | 61 | 62 | 64..=67 => arrangement <= 5,
        40 | 41 => (2..=5).contains(&arrangement),
        42..=53 => arrangement == 5 || arrangement == 6,
        60 | 63 => arrangement <= 1,
        _ => false,
    }
}

/// The least and the greatest i of a form.
pub fn immediates(operation: u64, arrangement: u64) -> (u64, u64) {
    let n = LANE[arrangement as usize];
    match operation {
        1..=4 | 17 => (0, n - 1),
        5..=8 | 18 | 30..=37 => (1, n),
        48..=53 if arrangement == 5 => (0, 7),
        48..=53 => (0, 3),
        _ => (0, 0),
    }
}

pub fn has_second(operation: u64) -> bool {
    matches!(operation, 9..=16 | 19..=26 | 40..=53 | 56..=59 | 64..=67)
}

fn narrows(operation: u64) -> bool {
    matches!(operation, 27..=37 | 64..=67)
}

/// The widths of d, n and m, if they are read.
pub fn wanted(operation: u64, arrangement: u64) -> [Option<u64>; 3] {
    let v = view(arrangement);
    let reads_d = matches!(operation, 17 | 18 | 43 | 44 | 46 | 47 | 49 | 50 | 52..=55 | 58 | 59) || narrows(operation) && v == 128;
    let (first, second) = match operation {
        27..=37 | 64..=67 | 45..=47 | 51..=53 => (128, 128),
        42..=44 => (64, 64),
        48..=50 => (64, 128),
        _ => (v, v),
    };
    [reads_d.then_some(v), Some(first), has_second(operation).then_some(second)]
}

/// 2, 3, 4 or 0.
pub fn form_number(operation: u64, arrangement: u64, i: u64) -> u64 {
    if !(1..=67).contains(&operation) {
        return 2;
    }
    if !has_form(operation, arrangement) {
        return 3;
    }
    let (least, greatest) = immediates(operation, arrangement);
    if i < least || greatest < i { 4 } else { 0 }
}

/// The code that crates/neon describes: the immediate's sort, second source, d read, and sources of 128 bits.
pub fn form_code(operation: u64, arrangement: u64) -> u64 {
    if !(1..=67).contains(&operation) || !has_form(operation, arrangement) {
        return 0;
    }
    let sort = match operation {
        1..=4 | 17 => 2,
        5..=8 | 18 | 30..=37 => 3,
        48..=53 => 4,
        _ => 1,
    };
    let [d, n, m] = wanted(operation, arrangement);
    // the table keeps the width of a second source that is not wanted: it is the first's
    let second = m.or(n);
    sort | u64::from(m.is_some()) << 3 | u64::from(d.is_some()) << 4 | u64::from(n == Some(128)) << 5 | u64::from(second == Some(128)) << 6
}

pub fn places(words: usize) -> usize {
    (words / 4).min(65535)
}

pub fn instruction_number(pool: &[u64], count: usize, case: [u64; 3], nodes: [usize; 3]) -> u64 {
    if !valid(pool, count) {
        return 1;
    }
    let [operation, arrangement, i] = case;
    let number = form_number(operation, arrangement, i);
    if number != 0 {
        return number;
    }
    let good = |(width, node): (Option<u64>, usize)| match width {
        None => node == NONE,
        Some(w) => node < count && Node::at(pool, node).width == w,
    };
    if !wanted(operation, arrangement).into_iter().zip(nodes).all(good) {
        return 5;
    }
    if places(pool.len()) - count < RESERVE { 6 } else { 0 }
}

/// The last register that m may name: an element of 16 bits is of v0 to v15.
pub fn most_m(operation: u64, arrangement: u64) -> u64 {
    match operation {
        48..=53 if arrangement == 5 => 15,
        _ if has_second(operation) => 31,
        _ => 0,
    }
}

pub fn record_number(r: &Record) -> u64 {
    let [operation, arrangement, i, d, n, m] = *r;
    let number = form_number(operation, arrangement, i);
    if number != 0 {
        return number;
    }
    if d > 31 || n > 31 || m > most_m(operation, arrangement) { 7 } else { 0 }
}

/// Number and position.
pub fn block_number(words: usize, records: &[Record]) -> (u64, usize) {
    number_within(MOST_RECORDS, 32 + RESERVE * records.len(), words, records)
}

/// Those of a block with the given limit of records and need of places.
pub fn number_within(most: usize, needed: usize, words: usize, records: &[Record]) -> (u64, usize) {
    if records.len() > most {
        return (8, 0);
    }
    if places(words) < needed {
        return (6, 0);
    }
    let bad = records.iter().enumerate().find(|(_, r)| record_number(r) != 0);
    bad.map_or((0, 0), |(position, r)| (record_number(r), position))
}

/// The length of the text of every node of a valid pool, 2^62 if it is that or more.
pub fn lengths(pool: &[u64], count: usize) -> Vec<u64> {
    let digits = |v: u64| v.to_string().len() as u64;
    let mut all: Vec<u64> = vec![];
    for n in 0..count {
        let node = Node::at(pool, n);
        let [x, y] = node.data;
        let own = match node.kind {
            1 => 1 + digits(x),
            2 => format!("{:#x}:", u128::from(y) << 64 | u128::from(x)).len() as u64 + digits(node.width),
            3..=8 => 5,
            9 | 12..=14 => 6,
            10 | 11 => 7,
            15 => 9,
            16 => 3 + digits(x) + digits(y),
            17 => 10,
            _ => 8 + digits(node.width),
        };
        let sum = node.used().iter().fold(own, |sum, &m| sum.saturating_add(all[m]));
        all.push(sum.min(1 << 62));
    }
    all
}

/// 1, 5, 9 or 0; `length` is that of the node's text.
pub fn text_number(ok: bool, count: usize, node: usize, length: u64, room: usize) -> u64 {
    if !ok {
        1
    } else if node >= count {
        5
    } else if length > room as u64 {
        9
    } else {
        0
    }
}

/// What an accepted instruction leaves: old nodes and later words as they were, the rules kept, each new node reached.
pub fn grown(old: &[u64], count: usize, new: &[u64], node: usize, after: usize, width: u64) {
    assert!(count <= after && after <= count + RESERVE && node < after, "count {after}, node {node}");
    assert!(old[..4 * count] == new[..4 * count], "an old node changed");
    assert!(old[4 * after..] == new[4 * after..], "a word past the count changed");
    assert!(valid(new, after), "a new node breaks a rule");
    assert_eq!(Node::at(new, node).width, width);
    let mut reached = vec![false; after];
    reached[node] = true;
    for n in (count..after).rev() {
        assert!(reached[n], "node {n} is not reached");
        for &m in Node::at(new, n).used() {
            reached[m] = true;
        }
    }
}
