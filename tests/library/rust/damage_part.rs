//! Damaged pools and odd arguments: each operation's answer against the judge, on 8 MB of stack. A refusal changes no word
//! and no byte.
use crate::Sample;
use crate::blocks_part::{record, refused, spoil};
use crate::expr::Expr;
use crate::judge::{self, NONE, RESERVE, Record, block_number, grown, instruction_number, lengths, text_number, view, wanted};
use crate::native::{self, OLD, Words, bytes, words};
use crate::pools::{Node, Rng, grow, pool_words, valid};
use crate::texts_part::tree;

/// A good pool and what its damage starts from.
struct Base {
    words: Vec<u64>,
    count: usize,
}

fn base(r: &mut Rng) -> Base {
    let most = r.one_of(&[4, 12, 40]);
    let count = 1 + r.below(most) as usize;
    let mut nodes: Vec<Node> = vec![];
    while nodes.len() < count {
        nodes.extend(grow(r, &nodes));
    }
    let mut words = pool_words(&nodes);
    // as many free places as one instruction needs, or a block of one or two; one less; or few
    let free = r.one_of(&[RESERVE, RESERVE - 1, RESERVE + 32, 2 * RESERVE + 32, 0, 1, 2, 5]);
    let some = r.next();
    words.extend((0..4 * free as u64 + r.below(4)).map(|k| some.wrapping_mul(2 * k + 1)));
    Base { words, count }
}

const KINDS: usize = 8;
const DAMAGE: [&str; KINDS] = ["none", "bits", "words", "counts", "lengths", "operands", "widths", "sets"];

/// One way of damage; returns which.
pub fn damage(r: &mut Rng, words: &mut Vec<u64>, count: &mut usize) -> usize {
    let way = r.below(KINDS as u64) as usize;
    let any = count.saturating_mul(4).min(words.len() & !3) as u64;
    if any == 0 {
        return 0;
    }
    let at = r.below(any) as usize;
    let node = at / 4;
    match way {
        0 => {}
        1 => words[at] ^= 1 << r.below(64),
        2 => {
            words[at] = match r.below(6) {
                0 => r.next(),
                1 => r.below(70000),
                2 => words[at].wrapping_add(1),
                3 => words[at].wrapping_sub(1),
                4 => 0,
                _ => words[r.below(any) as usize],
            }
        }
        3 => {
            let places = words.len() / 4;
            *count = match r.below(6) {
                0 => count.wrapping_add(1),
                1 => *count - 1,
                2 => r.one_of(&[places, places + 1, 65535, 65536, usize::MAX, usize::MAX / 4 + 1]),
                3 => r.below(places as u64 + 2) as usize,
                4 => 0,
                _ => 1 << r.below(64),
            }
        }
        4 => {
            let keep = words.len() - r.below(words.len().min(12) as u64 + 1) as usize;
            words.truncate(if r.below(8) == 0 { at } else { keep });
        }
        5 => {
            // its own number, a later one, or any
            let operand = match r.below(4) {
                0 => node as u64,
                1 => node as u64 + 1,
                2 => r.below(*count as u64),
                _ => 65535,
            };
            let shift = 16 * r.below(4);
            let w1 = &mut words[4 * node + 1];
            *w1 = *w1 & !(0xffff << shift) | (operand & 0xffff) << shift;
        }
        6 => {
            let w0 = &mut words[4 * node];
            let width = r.one_of(&[0, 1, 64, 127, 128, 129, 130, 65535, 65536 + 64, *w0 >> 16 ^ 1]);
            *w0 = *w0 & 0xffff_ffff_0000_ffff | width << 16;
        }
        _ => {
            // a bit flipped, none, all, the set of a node before it, or the next register's alone
            let set = words[4 * node] >> 32;
            let other = words[4 * r.below(node as u64 + 1) as usize] >> 32;
            let flipped = set ^ 1 << r.below(32);
            let set = r.one_of(&[flipped, flipped, 0, 0xffff_ffff, other, set << 1 & 0xffff_ffff]);
            words[4 * node] = words[4 * node] & 0xffff_ffff | set << 32;
        }
    }
    way
}

/// An operation's arguments: mostly a legal form and nodes of the widths that it wants.
fn arguments(r: &mut Rng, pool: &[u64], count: usize) -> ([u64; 3], [usize; 3]) {
    let mut records = [record(r, 32)];
    if r.below(6) == 0 {
        spoil(r, &mut records);
    }
    let [operation, arrangement, i, ..] = records[0];
    let widths = if judge::form_number(operation, arrangement, i) == 0 { wanted(operation, arrangement) } else { [Some(64), Some(128), None] };
    let shown = count.min(pool.len() / 4);
    let nodes = widths.map(|width| {
        let list: Vec<usize> = (0..shown).filter(|&n| Some(pool[4 * n] >> 16 & 0xffff) == width).collect();
        if r.below(20) == 0 {
            r.one_of(&[0, count, count.wrapping_add(1), NONE, NONE + 1, usize::MAX])
        } else if width.is_none() || list.is_empty() {
            NONE
        } else {
            r.one_of(&list)
        }
    });
    ([operation, arrangement, i], nodes)
}

#[derive(Default)]
struct Seen {
    ways: [u64; KINDS],
    bad: u64,
    instruction: [u64; 14],
    text: [u64; 14],
    block: [u64; 14],
    registers: [u64; 14],
}

fn try_instruction(r: &mut Rng, lent: &mut Words, old: &[u64], count: usize, seen: &mut Seen) {
    let (case, nodes) = arguments(r, old, count);
    let want = instruction_number(old, count, case, nodes);
    let (number, node, after) = native::lower_instruction(lent, count, case, nodes);
    assert_eq!(number, want, "{case:?} {nodes:?} {count} {old:?}");
    if number == 0 {
        grown(old, count, lent.items(), node, after, view(case[1]));
        lent.set(old);
    } else {
        assert_eq!((node, after), (NONE, count));
        assert!(lent.items() == old, "a refused instruction wrote");
    }
    seen.instruction[number as usize] += 1;
}

fn text_of(pool: &[u64], node: usize) -> String {
    let mut trees: Vec<Expr> = vec![];
    for n in 0..=node {
        // a placeholder if the tree is not needed
        let needed = reaches(pool, node, n);
        trees.push(if needed { tree(&trees, &Node::at(pool, n)) } else { Expr::konst(0, 1) });
    }
    trees[node].to_string()
}

fn reaches(pool: &[u64], from: usize, to: usize) -> bool {
    let mut reached = vec![false; from + 1];
    reached[from] = true;
    for n in (to..=from).rev() {
        if reached[n] {
            for &m in Node::at(pool, n).used() {
                reached[m] = true;
            }
        }
    }
    reached[to]
}

fn try_text(r: &mut Rng, pool: &[u64], count: usize, ok: bool, seen: &mut Seen) {
    let node = match r.below(8) {
        0 => r.one_of(&[count, count.wrapping_add(1), NONE, usize::MAX]),
        _ if count == 0 || !ok => 0,
        _ => r.below(count as u64) as usize,
    };
    let length = if ok && node < count { lengths(pool, count)[node] } else { 0 };
    let near = length.min(3000) as usize;
    let room = r.one_of(&[0, near, near.saturating_sub(1), near + 1, 40]);
    let mut buffer = bytes(room);
    let (number, written) = native::write_text(pool, count, node, &mut buffer);
    assert_eq!(number, text_number(ok, count, node, length, room), "{node} {count} {pool:?}");
    if number == 0 {
        assert_eq!(written as u64, length);
        assert_eq!(&buffer.items()[..written], text_of(pool, node).as_bytes());
    }
    assert!(number == 0 || written == 0);
    assert!(buffer.items()[written..].iter().all(|&x| x == OLD), "a byte past the text changed");
    let ceiling = room as u32;
    let measured = native::text_length(pool, count, node, ceiling);
    let want = text_number(ok, count, node, 0, 0);
    assert_eq!(measured, (want, if want == 0 { length.min(u64::from(ceiling) + 1) } else { 0 }));
    seen.text[number as usize] += 1;
}

/// The set of a node against a walk over its whole term that reads no set.
fn try_registers(r: &mut Rng, pool: &[u64], count: usize, ok: bool, seen: &mut Seen) {
    let node = match r.below(8) {
        0 => r.one_of(&[count, count.wrapping_add(1), NONE, usize::MAX]),
        _ if count == 0 => 0,
        _ => r.below(count as u64) as usize,
    };
    let want = text_number(ok, count, node, 0, 0);
    let set = if want == 0 { beneath(pool, node) } else { 0 };
    assert_eq!(native::registers_of(pool, count, node), (want, set), "{node} {count} {pool:?}");
    seen.registers[want as usize] += 1;
}

fn beneath(pool: &[u64], node: usize) -> u64 {
    let mut reached = vec![false; node + 1];
    reached[node] = true;
    let mut set = 0;
    for n in (0..=node).rev() {
        if reached[n] {
            let at = Node::at(pool, n);
            at.used().iter().for_each(|&m| reached[m] = true);
            set |= if at.kind == 1 { 1 << at.data[0] } else { 0 };
        }
    }
    set
}

/// A pool of an earlier version, with no sets: refused by 1 if it has a Var.
fn try_earlier(pool: &[u64], count: usize) {
    let mut earlier = pool.to_vec();
    (0..count).for_each(|n| earlier[4 * n] &= 0xffff_ffff);
    let registers = (0..count).any(|n| Node::at(pool, n).kind == 1);
    assert_eq!(native::pool_check(&earlier, count), !registers);
    assert_eq!(native::registers_of(&earlier, count, 0).0, u64::from(registers));
}

fn try_block(r: &mut Rng, lent: &mut Words, old: &[u64], seen: &mut Seen) {
    let long = r.one_of(&[0, 0, 1, 1, 2, 85, 86, 95]);
    let mut records: Vec<Record> = (0..long).map(|_| record(r, 32)).collect();
    if r.below(2) == 0 {
        spoil(r, &mut records);
    }
    let (want, position) = block_number(old.len(), &records);
    let entries = r.one_of(&[34, 35, 40]);
    let tail = 0xdead_beef;
    let mut results = words(&vec![tail; entries]);
    let number = native::lower_block(lent, &records.concat(), &mut results);
    assert_eq!(number, want, "{records:?} in {} words", old.len());
    if number != 0 {
        refused(lent, old, &results, entries, position);
    } else {
        assert!(valid(lent.items(), results.items()[32] as usize));
        assert!(lent.items()[4 * results.items()[32] as usize..] == old[4 * results.items()[32] as usize..]);
        lent.set(old);
    }
    seen.block[number as usize] += 1;
}

/// Every number of an operation came up, and no other.
fn given(operation: &str, counts: &[u64], numbers: &[usize]) {
    for (number, &count) in counts.iter().enumerate() {
        assert_eq!(count > 0, numbers.contains(&number), "damage: {operation} gave {number} {count} times");
    }
}

/// So many pools bring up every number.
const LEAST: u64 = 20_000;

pub fn main(count: u64) {
    let count = count.max(LEAST);
    let mut r = Rng(0xb5ad_4ece_da1c_e2a9);
    let mut seen = Seen::default();
    let mut lent = words(&[]);
    let mut good = base(&mut r);
    for turn in 0..count {
        if turn % 50 == 0 {
            good = base(&mut r);
            try_earlier(&good.words, good.count);
        }
        let (mut pool, mut many) = (good.words.clone(), good.count);
        let way = damage(&mut r, &mut pool, &mut many);
        if r.below(4) == 0 {
            damage(&mut r, &mut pool, &mut many);
        }
        seen.ways[way] += 1;
        lent.set(&pool);
        let ok = valid(&pool, many);
        assert_eq!(native::pool_check(lent.items(), many), ok, "{many} {pool:?}");
        seen.bad += u64::from(!ok);
        try_instruction(&mut r, &mut lent, &pool, many, &mut seen);
        try_text(&mut r, &pool, many, ok, &mut seen);
        try_registers(&mut r, &pool, many, ok, &mut seen);
        if turn % 4 == 0 {
            try_block(&mut r, &mut lent, &pool, &mut seen);
        }
    }
    let ways: Vec<String> = DAMAGE.iter().zip(seen.ways).map(|(name, n)| format!("{name} {n}")).collect();
    println!("damage: {count} pools ({}), {} of them bad: yes or no as the judge says", ways.join(", "), seen.bad);
    println!("damage: answers by number, all as the judge's: one instruction {:?}, text {:?}, block {:?}", seen.instruction, seen.text, seen.block);
    println!("damage: registers beneath a node {:?}, the sets all as a walk finds them; earlier pools with a register get 1", seen.registers);
    assert!(seen.ways.iter().all(|&n| n > 0) && seen.bad > 0, "a way of damage did not come up");
    given("one instruction", &seen.instruction, &[0, 1, 2, 3, 4, 5, 6]);
    given("text", &seen.text, &[0, 1, 5, 9]);
    given("block", &seen.block, &[0, 2, 3, 4, 6, 7, 8]);
}

/// The sample for tests/library/stored/pools: the cases, and what the judge answers.
pub fn stored(count: u64) -> Sample {
    let mut r = Rng(0x2545_f491_4f6c_dd1d);
    let (mut input, mut answers, mut seen) = (String::new(), String::new(), [0; 14]);
    for _ in 0..count {
        let Base { mut words, mut count } = base(&mut r);
        words.truncate(4 * count + r.below(6) as usize);
        damage(&mut r, &mut words, &mut count);
        let (case, nodes) = arguments(&mut r, &words, count);
        let head: Vec<String> = case.iter().copied().chain(nodes.map(|n| n as u64)).map(|x| x.to_string()).collect();
        let body: Vec<String> = words.iter().map(|w| format!("{w:x}")).collect();
        input += &format!("{} {count} {} {}\n", words.len(), head.join(" "), body.join(" "));
        let (ok, number) = (valid(&words, count), instruction_number(&words, count, case, nodes));
        let asked = text_number(ok, count, nodes[1], 0, 0);
        let set = if asked == 0 { beneath(&words, nodes[1]) } else { 0 };
        answers += &format!("{} {number} {asked} {set:x}\n", u8::from(ok));
        seen[number as usize] += 1;
    }
    // these pools have few free places
    given("the stored sample", &seen, &[1, 2, 3, 4, 5, 6]);
    Sample { input, answers }
}
