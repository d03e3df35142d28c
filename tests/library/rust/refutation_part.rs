//! Refutations: damaged ones, damaged pools and odd arguments against a judge that is written from the definitions. What the damage starts from are
//! laws of numbers and bits, refuted by cases.
use crate::Sample;
use crate::damage_part::damage;
use crate::evaluate_part;
use crate::gates::{Cases, INPUTS, output, refused_step};
use crate::gates_part::{Side, Starts, ask, dirty, room, true_at};
use crate::judge::NONE;
use crate::native::{self, Memory};
use crate::pools::{Node, Rng, valid};

/// A pool that begins with v0 to v31, node by node.
struct Nodes(Vec<Node>);

impl Nodes {
    fn new() -> Self {
        Self((0..32).map(|r| Node { kind: 1, width: 128, operands: [0; 3], data: [r, 0] }).collect())
    }

    fn add(&mut self, kind: u64, width: u64, operands: [usize; 3], data: [u64; 2]) -> usize {
        self.0.push(Node { kind, width, operands, data });
        self.0.len() - 1
    }

    fn two(&mut self, kind: u64, a: usize, b: usize) -> usize {
        let width = if (12..=14).contains(&kind) { 0 } else { self.0[a].width };
        self.add(kind, width, [a, b, 0], [0; 2])
    }

    /// The lowest w bits.
    fn low(&mut self, a: usize, w: u64) -> usize {
        self.add(16, w, [a, 0, 0], [w - 1, 0])
    }

    fn choose(&mut self, condition: usize, a: usize, b: usize) -> usize {
        self.add(15, self.0[a].width, [condition, a, b], [0; 2])
    }

    fn not(&mut self, a: usize) -> usize {
        let width = self.0[a].width;
        let ones = u128::MAX >> (128 - width);
        let all = self.add(2, width, [0; 3], [ones as u64, (ones >> 64) as u64]);
        self.two(8, a, all)
    }
}

const ADD: u64 = 3;
const SUB: u64 = 4;
const MUL: u64 = 5;
const AND: u64 = 6;
const OR: u64 = 7;
const XOR: u64 = 8;

/// Laws of numbers and bits: `side` 0 and 1 are two terms that are equal. Terms of w bits of x, y and z.
fn law(n: &mut Nodes, number: u64, side: u64, [x, y, z]: [usize; 3]) -> usize {
    let (left, both) = (side == 0, |n: &mut Nodes, f: u64, g: u64, a: usize, b: usize, c: usize| {
        let (p, q) = (n.two(f, a, b), n.two(f, a, c));
        n.two(g, p, q)
    });
    let nested = |n: &mut Nodes, f: u64, g: u64, a: usize, b: usize, c: usize| {
        let p = n.two(g, b, c);
        n.two(f, a, p)
    };
    match number {
        0 if left => nested(n, AND, OR, x, y, z),
        0 => both(n, AND, OR, x, y, z),
        1 if left => nested(n, OR, AND, x, y, z),
        1 => both(n, OR, AND, x, y, z),
        2 if left => nested(n, XOR, XOR, x, y, z),
        2 => nested(n, XOR, XOR, z, x, y),
        3 if left => nested(n, AND, XOR, x, y, z),
        3 => both(n, AND, XOR, x, y, z),
        4 if left => nested(n, ADD, ADD, x, y, z),
        4 => nested(n, ADD, ADD, z, x, y),
        5 if left => nested(n, MUL, ADD, x, y, z),
        5 => both(n, MUL, ADD, x, y, z),
        6 if left => nested(n, SUB, ADD, x, y, z),
        6 => {
            let p = n.two(SUB, x, y);
            n.two(SUB, p, z)
        }
        7 if left => n.two(ADD, x, y),
        7 => {
            let (p, q) = (n.two(XOR, x, y), n.two(AND, x, y));
            let twice = n.two(ADD, q, q);
            n.two(ADD, p, twice)
        }
        8 => {
            let (a, b) = if left { (x, y) } else { (y, x) };
            let less = n.two(13, a, b);
            n.choose(less, b, a)
        }
        9 if left => y,
        9 => {
            let same = n.two(12, x, y);
            n.choose(same, x, y)
        }
        10 if left => x,
        _ => {
            let (p, other) = (n.two(AND, x, y), n.not(y));
            let q = n.two(AND, x, other);
            n.two(OR, p, q)
        }
    }
}

const LAWS: u64 = 11;

/// One side of a law: on some registers, or on their lowest bits and widened.
fn law_side(number: u64, side: u64, registers: [usize; 3], w: u64, more: u64) -> Side {
    let mut n = Nodes::new();
    (0..more).for_each(|k| {
        n.two(AND, k as usize, 9);
    });
    let made = if number <= 3 || number == 10 {
        law(&mut n, number, side, registers)
    } else {
        let low = registers.map(|register| n.low(register, w));
        let made = law(&mut n, number, side, low);
        n.add(18, 128, [made, 0, 0], [0; 2])
    };
    Side::of(&n.0, made)
}

/// A question and a refutation, right or for another question.
struct Base {
    first: Side,
    second: Side,
    cut: [usize; 2],
    count: usize,
    literal: u32,
    graph: Vec<u64>,
    refutation: Vec<u32>,
    /// Whether the bits are equal at every start.
    equal: bool,
}

fn base(r: &mut Rng, memory: &mut Memory) -> Base {
    let (number, w) = (r.below(LAWS), 1 + r.below(2));
    let registers = [r.below(3), r.below(3), r.below(4)].map(|k| k as usize);
    let first = law_side(number, 0, registers, w, r.below(3));
    let equal = r.below(4) != 0;
    let second = if equal { law_side(number, 1, registers, w, r.below(3)) } else { law_side(r.below(LAWS), 1, registers, w, r.below(3)) };
    let lo = if number <= 3 { r.below(127) as usize } else { 0 };
    let cut = [lo + r.below(2) as usize, lo];
    let (count, literal) = ask(&first, &second, cut, memory);
    let graph = memory.graph.items()[..count].to_vec();
    let shown = Cases::refute(r, &graph, literal);
    assert!(shown.is_some() || !equal, "a law fails: {number}");
    let equal = shown.is_some();
    // for bits that differ a refutation of anything: the gates are those of other terms
    let refutation = shown.unwrap_or_else(|| {
        let (count, literal) = ask(&first, &law_side(number, 1, registers, w, 0), cut, memory);
        Cases::refute(r, &memory.graph.items()[..count].to_vec(), literal).expect("a law")
    });
    Base { first, second, cut, count, literal, graph, refutation, equal }
}

/// Damages a refutation in one place.
fn damage_words(r: &mut Rng, words: &mut Vec<u32>, base: &Base) {
    if words.is_empty() {
        words.extend([0, 1, r.one_of(&[0, 2, 3, 7])]);
        return;
    }
    let at = r.below(words.len() as u64) as usize;
    let gate = 4 * r.below(base.count as u64 + 2) as u32;
    match r.below(12) {
        0 => words[at] = words[at].wrapping_add(1),
        1 => words[at] = words[at].wrapping_sub(1),
        2 => words[at] ^= 1 << r.below(32),
        3 => words[at] = gate + r.below(4) as u32,
        4 => words[at] = 4 * r.below(20) as u32 + 3,
        5 => words[at] = r.below(u64::from(output(base.count)) + 2) as u32,
        6 => words[at] = r.one_of(&[0, 1, 2, 3, base.literal, base.literal ^ 1, u32::MAX, output(base.count) - 1, output(base.count)]),
        7 => words.truncate(at),
        8 => {
            words.remove(at);
        }
        9 => words.insert(at, r.one_of(&[0, 1, 3, gate])),
        10 => {
            let other = r.below(words.len() as u64) as usize;
            words.swap(at, other);
        }
        _ => words.extend_from_within(at..),
    }
}

/// What the judge answers if graph and literal are known.
fn step_number(graph: &[u64], literal: u32, refutation: &[u32]) -> (u64, usize) {
    if literal == 0 && refutation.is_empty() {
        return (0, 0);
    }
    match refused_step(graph, literal, refutation) {
        0 => (0, 0),
        step => (14, step),
    }
}

/// 1, 5, 13 or 0.
fn arguments_number(first: &Side, second: &Side, [hi, lo]: [usize; 2]) -> u64 {
    let wide = |side: &Side| side.node < side.count && Node::at(&side.pool, side.node).width == 128;
    if !valid(&first.pool, first.count) || !valid(&second.pool, second.count) {
        1
    } else if !wide(first) || !wide(second) {
        5
    } else if !(lo <= hi && hi < 128) {
        13
    } else {
        0
    }
}

/// Damages one of the pools, nodes, counts, or the cut.
fn damage_question(r: &mut Rng, base: &Base) -> (Side, Side, [usize; 2]) {
    let (mut sides, mut cut) = ([base.first.clone(), base.second.clone()], base.cut);
    let which = r.below(2) as usize;
    let side = &mut sides[which];
    match r.below(8) {
        0 => cut[r.below(2) as usize] = r.one_of(&[0, 1, 63, 127, 128, 129, 1 << 32, usize::MAX]),
        1 => side.node = r.one_of(&[0, 31, 32, 33, side.count - 1, side.count, NONE, usize::MAX]),
        _ => {
            damage(r, &mut side.pool, &mut side.count);
        }
    }
    let [first, second] = sides;
    (first, second, cut)
}

/// Bits that a refutation was accepted for are equal at some starts.
fn equal_at_starts(r: &mut Rng, first: &Side, second: &Side, [hi, lo]: [usize; 2]) {
    for _ in 0..8 {
        let start = evaluate_part::start(r);
        assert_eq!((first.value(&start) ^ second.value(&start)) << (127 - hi) >> (127 - hi + lo), 0, "accepted, and the bits differ");
    }
}

/// A damaged question with the refutation of the base; the number that it gets.
fn try_question(r: &mut Rng, base: &Base, refutation: &[u32], memory: &mut Memory) -> u64 {
    let (first, second, cut) = damage_question(r, base);
    let want = arguments_number(&first, &second, cut);
    let (gates, places) = if want == 1 { (0, 0) } else { room(&first, &second) };
    assert_eq!(native::question_room(first.chosen(), second.chosen()), (u64::from(want == 1), gates, places));
    let (few_gates, few_places) = (r.below(8) == 0 && gates > 0, r.below(8) == 0 && places > 0);
    memory.fit(gates - usize::from(few_gates), places - usize::from(few_places), gates);
    let want = if want == 0 && (few_gates || few_places) { 6 } else { want };
    let old = (want != 0).then(|| [&memory.graph, &memory.bits, &memory.table].map(|lent| lent.items().to_vec()));
    let (number, count, literal) = native::question(first.chosen(), second.chosen(), cut, memory);
    assert_eq!(number, want, "{first:?} {second:?} {cut:?}");
    let graph = memory.graph.items()[..count].to_vec();
    if let Some(old) = old {
        assert_eq!((count, literal), (0, 0));
        assert!([&memory.graph, &memory.bits, &memory.table].iter().zip(old).all(|(lent, old)| lent.items() == old), "a refused question wrote");
    }
    let (few_marks, few_starts) = (r.below(8) == 0, r.below(8) == 0);
    memory.marks.fit(2 * (INPUTS + count) - usize::from(few_marks));
    memory.starts.fit(refutation.len() / 2 + 1 - usize::from(few_starts));
    memory.table.items_mut().fill(0);
    let want = match want {
        0 if few_marks || few_starts => (6, 0),
        0 => step_number(&graph, literal as u32, refutation),
        refused => (refused, 0),
    };
    assert_eq!(native::equal(first.chosen(), second.chosen(), cut, refutation, memory), want, "{first:?} {second:?} {cut:?}");
    if want.0 == 0 {
        equal_at_starts(r, &first, &second, cut);
    }
    want.0
}

/// A damaged refutation of the base's question; the number that it gets.
fn try_refutation(base: &Base, refutation: &[u32], memory: &mut Memory) -> u64 {
    memory.table.items_mut().fill(0);
    memory.starts.fit(refutation.len() / 2 + 1);
    let answer = native::equal(base.first.chosen(), base.second.chosen(), base.cut, refutation, memory);
    let want = step_number(&base.graph, base.literal, refutation);
    assert_eq!(answer, want, "{:?} {:?} {:?} {refutation:?}", base.first, base.second, base.cut);
    assert!(answer.0 != 0 || base.equal, "accepted, and the bits differ");
    answer.0
}

/// Any table: the graph may be another one, and what is accepted is still right.
fn try_dirty(r: &mut Rng, base: &Base, refutation: &[u32], memory: &mut Memory) -> u64 {
    dirty(r, memory);
    // gates may be built twice
    memory.marks.fit(2 * (INPUTS + memory.graph.items().len()));
    memory.starts.fit(refutation.len() / 2 + 1);
    let (number, step) = native::equal(base.first.chosen(), base.second.chosen(), base.cut, refutation, memory);
    assert!(number == 14 && step > 0 || (number, step) == (0, 0) && base.equal, "{number} {step}");
    number
}

/// Memory for the base's question and for a refutation of it.
fn fit(base: &Base, memory: &mut Memory) {
    let (gates, places) = room(&base.first, &base.second);
    memory.fit(gates, places, gates);
    memory.marks.fit(2 * (INPUTS + base.count));
}

/// Turns with one base.
const TURNS: u64 = 250;

pub fn main(count: u64) {
    let mut r = Rng(0xe9b5_dba5_8189_dbbc);
    let mut memory = Memory::new();
    let (mut seen, mut steps) = ([0u64; 15], 0);
    for _ in 0..count.div_ceil(TURNS) {
        let base = base(&mut r, &mut memory);
        steps += base.refutation.len();
        for turn in 0..TURNS {
            let mut refutation = base.refutation.clone();
            if turn > 0 {
                (0..1 + r.below(2)).for_each(|_| damage_words(&mut r, &mut refutation, &base));
            }
            if turn % 8 == 7 {
                seen[try_question(&mut r, &base, &refutation, &mut memory) as usize] += 1;
                continue;
            }
            fit(&base, &mut memory);
            if turn % 25 == 6 {
                seen[try_dirty(&mut r, &base, &refutation, &mut memory) as usize] += 1;
                continue;
            }
            let number = try_refutation(&base, &refutation, &mut memory);
            assert!(turn > 0 || (number == 0) == base.equal);
            seen[number as usize] += 1;
        }
    }
    assert!([0, 1, 5, 6, 13, 14].iter().all(|&number| seen[number] > 0), "every number comes up: {seen:?}");
    let tried: u64 = seen.iter().sum();
    println!(
        "refutations: {tried} damaged refutations, pools and arguments ({steps} words undamaged), by number {seen:?}: number and step are the judge's, \
         and none is accepted wrongly"
    );
}

/// The sample for tests/library/stored/gates: questions with refutations, and what the judge answers; for a question that is right, the starts at which the
/// literal is true, of 64 whose registers are a series.
pub fn stored(count: u64) -> Sample {
    let mut r = Rng(0xd807_aa98_a303_0242);
    let mut memory = Memory::new();
    let (mut input, mut answers) = (String::new(), String::new());
    for turn in 0..count {
        let base = base(&mut r, &mut memory);
        let mut refutation = base.refutation.clone();
        if turn % 3 != 0 {
            damage_words(&mut r, &mut refutation, &base);
        }
        let (first, second, cut) = if turn % 4 == 3 { damage_question(&mut r, &base) } else { (base.first.clone(), base.second.clone(), base.cut) };
        for side in [&first, &second] {
            let body: String = side.pool.iter().map(|w| format!(" {w:x}")).collect();
            input += &format!("{} {} {}{body}\n", side.pool.len(), side.count, side.node);
        }
        let body: String = refutation.iter().map(|w| format!(" {w:x}")).collect();
        input += &format!("{} {} {}{body}\n", cut[0], cut[1], refutation.len());
        let number = arguments_number(&first, &second, cut);
        if number != 0 {
            answers += &format!("{number} 0 {number} 0\n");
            continue;
        }
        let (gates, literal) = ask(&first, &second, cut, &mut memory);
        let starts = series();
        let truths = true_at(gates, literal, &starts, &memory);
        let differ = |start| (first.value(start) ^ second.value(start)) << (127 - cut[0]) >> (127 - cut[0] + cut[1]) != 0;
        assert!((0..64).all(|s| differ(&starts[s]) == (truths >> s & 1 == 1)));
        let (number, step) = step_number(&memory.graph.items()[..gates], literal, &refutation);
        answers += &format!("0 {truths:x} {number} {step}\n");
    }
    Sample { input, answers }
}

/// Bit s of word k is the k-th input at start s, from the first bit of v0 on.
fn series() -> Starts {
    let mut r = Rng(0x9e37_79b9_7f4a_7c15);
    let mut starts = [[0; 32]; 64];
    for k in 0..4096 {
        let word = r.next();
        for (s, start) in starts.iter_mut().enumerate() {
            start[k / 128] |= u128::from(word >> s & 1) << (k % 128);
        }
    }
    starts
}
