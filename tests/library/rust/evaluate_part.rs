//! Values of terms and the visits made, against `evaluate`: random pools of all kinds and widths, corner operands at every width,
//! allowances around the visits; damaged pools; the deepest chains, on 8 MB of stack; and a term of 2^65,534 visits and more.
use std::time::Instant;

use crate::Sample;
use crate::evaluate::{self, Value};
use crate::native;
use crate::pools::{Node, Rng, grow, pool_words, valid};

/// Nodes with more visits are asked for with small allowances alone.
const MOST_VISITS: u64 = 3000;

pub fn start(r: &mut Rng) -> [u128; 32] {
    std::array::from_fn(|_| match r.below(6) {
        0 => r.one_of(&[0, 1, u128::MAX, 1 << 127, (1 << 127) - 1, 1 << 63, 1 << 64, (1 << 64) - 1]),
        1 => u128::from(r.below(131)),
        _ => r.wide() >> r.below(128),
    })
}

fn node(kind: u64, width: u64, operands: [usize; 3], data: [u64; 2]) -> Node {
    Node { kind, width, operands, data }
}

/// A term of `width` bits with a corner value: 0, 1, the greatest, the sign alone, the width and its neighbours, or any.
fn corner(r: &mut Rng, nodes: &mut Vec<Node>, width: u64) -> usize {
    let all = if width < 128 { (1u128 << width) - 1 } else { u128::MAX };
    let any = r.wide();
    let v = r.one_of(&[0, 1, all, (all >> 1) + 1, all >> 1, u128::from(width), u128::from(width) - 1, u128::from(width) + 1, 1 << 64, any]) & all;
    nodes.push(node(2, width, [0; 3], [v as u64, (v >> 64) as u64]));
    if width == 129 && r.below(2) == 0 {
        // bit 128 is set by a sign alone
        let short = nodes.len() - 1;
        nodes[short].width = 128;
        nodes.push(node(19, 129, [short, 0, 0], [0; 2]));
    }
    nodes.len() - 1
}

/// Two operands of one width and a node of each kind over them, and extensions to every width.
fn corners(r: &mut Rng) -> Vec<Node> {
    let any = 1 + r.below(129);
    let width = r.one_of(&[1, 2, 63, 64, 65, 127, 128, 129, any, any]);
    let mut nodes = vec![];
    let (a, b) = (corner(r, &mut nodes, width), corner(r, &mut nodes, width));
    for kind in 3..=11 {
        nodes.push(node(kind, width, [a, b, 0], [0; 2]));
    }
    for kind in 12..=14 {
        nodes.push(node(kind, 0, [a, b, 0], [0; 2]));
        nodes.push(node(15, width, [nodes.len() - 1, a, b], [0; 2]));
    }
    let hi = r.below(width);
    let lo = r.below(hi + 1);
    nodes.push(node(16, hi - lo + 1, [a, 0, 0], [hi, lo]));
    let low = nodes.len() - 1;
    if width + hi - lo + 1 <= 129 {
        nodes.push(node(17, width + hi - lo + 1, [a, low, 0], [0; 2]));
    }
    for kind in [18, 19] {
        nodes.push(node(kind, width + r.below(130 - width), [r.one_of(&[a, b]), 0, 0], [0; 2]));
    }
    nodes
}

fn random(r: &mut Rng) -> Vec<Node> {
    let count = 2 + r.below(38) as usize;
    let mut nodes = vec![];
    while nodes.len() < count {
        nodes.extend(grow(r, &nodes));
    }
    nodes
}

fn refused(pool: &[u64], count: usize, node: usize, start: &[u128; 32], allowance: u64, number: u64) {
    assert_eq!(native::value(pool, count, node, start, allowance), (number, [0; 3], 0), "node {node} of {count}");
}

/// One node, with allowances of none, one short, as many as it takes, more, and the most.
fn ask(r: &mut Rng, pool: &[u64], count: usize, node: usize, start: &[u128; 32], value: Value, visits: u64) -> u64 {
    refused(pool, count, node, start, 0, 11);
    if visits > MOST_VISITS {
        let few = r.below(MOST_VISITS);
        refused(pool, count, node, start, few, 11);
        return 0;
    }
    refused(pool, count, node, start, visits - 1, 11);
    for allowance in [visits, visits + 1 + r.below(1000), u64::MAX] {
        assert_eq!(native::value(pool, count, node, start, allowance), (0, value, visits), "node {node} at {start:x?} of {pool:x?}");
    }
    visits
}

/// Bad counts, nodes and words.
fn damaged(r: &mut Rng, pool: &[u64], count: usize, start: &[u128; 32]) {
    for node in [count, count + 1, 65535, usize::MAX] {
        refused(pool, count, node, start, u64::MAX, 5);
    }
    for count in [pool.len() / 4 + 1, 65536, usize::MAX] {
        refused(pool, count, r.below(9) as usize, start, 0, 1);
    }
    let mut words = pool.to_vec();
    words[r.below(4 * count as u64) as usize] ^= 1 << r.below(64);
    if !valid(&words, count) {
        refused(&words, count, r.below(count as u64 + 2) as usize, start, u64::MAX, 1);
    }
}

fn chain(name: &str, nodes: &[Node], start: &[u128; 32]) {
    let pool = pool_words(nodes);
    let count = nodes.len();
    assert!(count == 65535 && valid(&pool, count), "{name}");
    let values = evaluate::values(&pool, count, start);
    let visits = evaluate::visits(&pool, &values);
    let last = count - 1;
    assert!(visits[last] >= 65534, "{name}: {} visits", visits[last]);
    assert_eq!(native::value(&pool, count, last, start, visits[last]), (0, values[last], visits[last]), "{name}");
    refused(&pool, count, last, start, visits[last] - 1, 11);
}

/// 65,535 nodes, each over the one before: every kind with an operand, at each place of an operand.
fn chains(r: &mut Rng) -> u64 {
    let start = start(r);
    let first = || vec![node(1, 128, [0; 3], [0, 0]), node(1, 128, [0; 3], [1, 0])];
    let grown = |begin: Vec<Node>, next: &dyn Fn(usize) -> Vec<Node>| {
        let mut nodes = begin;
        while nodes.len() < 65535 {
            let more = next(nodes.len() - 1);
            nodes.extend(more);
        }
        nodes.truncate(65535);
        nodes
    };
    let mut many = 0;
    let mut try_chain = |name: &str, nodes: Vec<Node>| {
        chain(name, &nodes, &start);
        many += 1;
    };
    for kind in 3..=11 {
        try_chain("left operand", grown(first(), &|last| vec![node(kind, 128, [last, 0, 0], [0; 2])]));
        try_chain("right operand", grown(first(), &|last| vec![node(kind, 128, [0, last, 0], [0; 2])]));
    }
    for kind in 12..=14 {
        let condition = |a: usize, b: usize, last: usize| vec![node(kind, 0, [a, b, 0], [0; 2]), node(15, 128, [last + 1, 0, 1], [0; 2])];
        try_chain("comparison, left", grown(vec![first()[0], first()[1], node(3, 128, [0, 1, 0], [0; 2])], &|last| condition(last, 0, last)));
        try_chain("comparison, right", grown(vec![first()[0], first()[1], node(3, 128, [0, 1, 0], [0; 2])], &|last| condition(0, last, last)));
    }
    // conditions that hold, and that do not
    for (name, kind, arms) in [("first arm", 12, [1, 0]), ("second arm", 13, [0, 1])] {
        let begin = vec![first()[0], first()[1], node(kind, 0, [0, 0, 0], [0; 2])];
        let next = |last: usize| {
            let last = if last == 2 { 1 } else { last };
            vec![node(15, 128, [2, if arms[0] == 1 { last } else { 0 }, if arms[1] == 1 { last } else { 0 }], [0; 2])]
        };
        try_chain(name, grown(begin, &next));
    }
    try_chain("cut", grown(first(), &|last| vec![node(16, 128, [last, 0, 0], [127, 0])]));
    for (name, high) in [("upper part", true), ("lower part", false)] {
        let join = |last: usize| {
            let parts = if high { [last + 1, 0, 0] } else { [0, last + 1, 0] };
            vec![node(16, 1, [last, 0, 0], [0, 0]), node(17, 129, parts, [0; 2]), node(16, 128, [last + 2, 0, 0], [128, 1])]
        };
        try_chain(name, grown(first(), &join));
    }
    for kind in [18, 19] {
        try_chain("extension", grown(first(), &|last| vec![node(kind, 128, [last, 0, 0], [0; 2])]));
    }
    many
}

/// Sums of a node with itself: the visits are too many to be made.
fn many_visits(r: &mut Rng) {
    let start = start(r);
    let mut nodes = vec![node(1, 128, [0; 3], [0, 0])];
    nodes.extend((0..65534).map(|last| node(3, 128, [last, last, 0], [0; 2])));
    let pool = pool_words(&nodes);
    for allowance in [1, 65534, 1_000_000] {
        let began = Instant::now();
        refused(&pool, 65535, 65534, &start, allowance, 11);
        let nanoseconds = began.elapsed().as_nanos();
        // the pool check, and what a visit takes at most on a busy machine
        assert!(nanoseconds < 65535 * 100 + u128::from(allowance) * 500 + 50_000_000, "{allowance} visits: {nanoseconds} ns");
    }
    let began = Instant::now();
    refused(&pool, 65535, 65534, &start, 10_000_000, 11);
    println!("evaluate: 2^65,534 visits and more are refused after 10,000,000, in {} ms", began.elapsed().as_millis());
}

pub fn main(pools: u64) {
    let mut r = Rng(0x6a09_e667_f3bc_c908);
    let (mut asked, mut answered, mut kinds) = (0u64, 0u64, [0u64; 20]);
    let mut widths = [false; 130];
    for turn in 0..pools {
        let nodes = if turn % 2 == 0 { random(&mut r) } else { corners(&mut r) };
        let pool = pool_words(&nodes);
        let count = nodes.len();
        assert!(valid(&pool, count));
        let start = start(&mut r);
        let values = evaluate::values(&pool, count, &start);
        let visits = evaluate::visits(&pool, &values);
        for _ in 0..4 {
            let n = r.below(count as u64) as usize;
            answered += u64::from(ask(&mut r, &pool, count, n, &start, values[n], visits[n]) > 0);
            asked += 1;
            kinds[nodes[n].kind as usize] += 1;
            widths[nodes[n].width as usize] = true;
        }
        if turn % 8 == 0 {
            damaged(&mut r, &pool, count, &start);
        }
    }
    assert!(pools < 1000 || (kinds[1..].iter().all(|&k| k > 0) && widths.iter().all(|&w| w)), "kinds {kinds:?}");
    assert!(answered * 2 > asked && asked > 0, "{answered} of {asked} answered");
    println!("evaluate: {asked} nodes of {pools} random pools, {answered} with a value: values and visits equal the judge's at four allowances");
    println!("evaluate: {} chains of 65,535 nodes on 8 MB of stack", chains(&mut r));
    many_visits(&mut r);
}

/// The sample for tests/library/stored/evaluate: pools with a question each, and the judge's answers.
pub fn stored(count: u64) -> Sample {
    let mut r = Rng(0xbb67_ae85_84ca_a73b);
    let mut at = [0; 32];
    let (mut input, mut answers) = (String::new(), String::new());
    for turn in 0..count {
        if turn % 20 == 0 {
            at = start(&mut r);
            input += &format!("S {}\n", native::register_words(&at).iter().map(|w| format!("{w:x}")).collect::<Vec<_>>().join(" "));
        }
        let nodes = if turn % 2 == 0 { random(&mut r) } else { corners(&mut r) };
        let pool = pool_words(&nodes);
        let values = evaluate::values(&pool, nodes.len(), &at);
        let visits = evaluate::visits(&pool, &values);
        let n = nodes.len() - 1 - r.below(3).min(nodes.len() as u64 - 1) as usize;
        let allowance = r.one_of(&[visits[n], visits[n], visits[n].saturating_add(9), visits[n] - 1, u64::MAX]).min(1_000_000);
        input += &format!("{} {n} {allowance} {}\n", nodes.len(), pool.iter().map(|w| format!("{w:x}")).collect::<Vec<_>>().join(" "));
        if visits[n] <= allowance {
            let [low, high, top] = values[n];
            answers += &format!("0 {low:x} {high:x} {top:x} {}\n", visits[n]);
        } else {
            answers += "11 0 0 0 0\n";
        }
    }
    Sample { input, answers }
}
