//! The saturation bit of a block, by its term and by the runner, against the manual's rule written once more here, and against the flag that Arm's
//! instructions left (document 02, S-12).
use crate::Sample;
use crate::blocks_part::{record, spoil};
use crate::evaluate;
use crate::evaluate_part;
use crate::judge::{NONE, Record, form_number, has_second, immediates, number_within, record_number};
use crate::native::{self, Words, words};
use crate::pools::{Node, Rng, valid};
use crate::run_part::corners;
use crate::table::{self, Sources, clamp, left, read, right};

const MOST_RECORDS: usize = 31;
const RESERVE: usize = 2048;
const BIT: usize = 34;

/// So many visits are asked for before the values are worked out here.
const VISITS: u64 = 1 << 20;

/// Places that a block of k records needs.
fn room(k: usize) -> usize {
    32 + RESERVE * k + 1
}

/// Whether the exact number z is not one of the range.
fn beyond(signed: bool, n: u32, z: i128) -> bool {
    read(signed, n, clamp(signed, n, z)) != z
}

/// Whether a lane saturates by the manual.
fn lane_saturates(operation: u64, n: u32, i: u32, &Sources { old, first, second }: &Sources) -> bool {
    let (u, s) = (|x| read(false, n, x), |x| read(true, n, x));
    let (wide_u, wide_s) = (|x| read(false, 2 * n, x), |x| read(true, 2 * n, x));
    match operation {
        2 => beyond(true, n, left(s(first), i)),
        3 => beyond(false, n, left(u(first), i)),
        4 => beyond(false, n, left(s(first), i)),
        13..=16 => {
            let (signed, k) = (operation % 2 == 1, i32::from(second as u8 as i8));
            let a = read(signed, n, first);
            beyond(signed, n, if k < 0 { right(operation >= 15, a, -k as u32) } else { left(a, k as u32) })
        }
        19 => beyond(true, n, s(first) + s(second)),
        20 => beyond(false, n, u(first) + u(second)),
        21 => beyond(true, n, s(first) - s(second)),
        22 => beyond(false, n, u(first) - u(second)),
        27 => beyond(true, n, wide_s(first)),
        28 => beyond(false, n, wide_u(first)),
        29 => beyond(false, n, wide_s(first)),
        32 | 33 => beyond(true, n, right(operation == 33, wide_s(first), i)),
        34 | 35 => beyond(false, n, right(operation == 35, wide_u(first), i)),
        36 | 37 => beyond(false, n, right(operation == 37, wide_s(first), i)),
        38 => beyond(true, n, s(first).abs()),
        39 => beyond(true, n, -s(first)),
        40 | 41 => beyond(true, n, right(operation == 41, 2 * s(first) * s(second), n)),
        42..=53 => {
            let product = 2 * read(true, n / 2, first) * read(true, n / 2, second);
            let p = s(clamp(true, n, product));
            let sum = match operation % 3 {
                0 => p,
                1 => s(old) + p,
                _ => s(old) - p,
            };
            beyond(true, n, product) || beyond(true, n, sum)
        }
        54 => beyond(true, n, s(old) + u(first)),
        55 => beyond(false, n, u(old) + s(first)),
        _ => false,
    }
}

/// The flag after a block, from a cleared one.
fn saturates(records: &[Record], start: &[u128; 32]) -> bool {
    let mut registers = *start;
    records.iter().fold(false, |before, record| {
        let (bits, sources) = table::lanes(record, &registers);
        let now = sources.iter().any(|lane| lane_saturates(record[0], bits, record[2] as u32, lane));
        table::step(record, &mut registers);
        before || now
    })
}

/// A block that is lowered with its bit.
struct Lowered {
    number: u64,
    pool: Words,
    old: Vec<u64>,
    results: Vec<u64>,
}

fn lowered(r: &mut Rng, places: usize, records: &[Record]) -> Lowered {
    let old: Vec<u64> = (0..4 * places).map(|k| k as u64 ^ 0x0123_4567_89ab_cdef).collect();
    let mut flat: Vec<u64> = records.concat();
    // numbers after the last whole record are not read
    flat.extend((0..r.below(6)).map(|_| r.next()));
    let (mut pool, mut results) = (words(&old), words(&[77; 35]));
    let number = native::lower_block_saturation(&mut pool, &flat, &mut results);
    Lowered { number, pool, old, results: results.items().to_vec() }
}

impl Lowered {
    fn count(&self) -> usize {
        self.results[32] as usize
    }

    /// The bit's value at a start: by the library, and by the judge if that takes too many visits.
    fn bit(&self, start: &[u128; 32]) -> u64 {
        let node = self.results[BIT] as usize;
        assert_eq!(Node::at(self.pool.items(), node).width, 1, "the bit has one bit");
        let (number, value, _) = native::value(self.pool.items(), self.count(), node, start, VISITS);
        let judged = evaluate::values(self.pool.items(), self.count(), start)[node];
        assert!(number == 11 || value == judged);
        judged[0]
    }

    /// 32 times no node, count 0, the position, no bit, and no word of the pool.
    fn refused(&self, position: usize) {
        let mut want = vec![NONE as u64; 32];
        want.extend([0, position as u64, NONE as u64]);
        assert_eq!(self.results, want);
        assert!(self.pool.items() == self.old, "a refused block wrote to the pool");
    }

    /// A good pool within the room; every node is reached from a register or the bit, but for reads of a register.
    fn accepted(&self, records: &[Record]) {
        let (pool, count) = (self.pool.items(), self.count());
        assert!(valid(pool, count) && count <= room(records.len()) && self.results[33] == 0);
        assert!(pool[4 * count..] == self.old[4 * count..], "a word past the count changed");
        if records.len() > 1 {
            return;
        }
        let mut reached = vec![false; count];
        for node in self.results[..32].iter().chain([&self.results[BIT]]) {
            reached[*node as usize] = true;
        }
        for n in (32..count).rev() {
            let node = Node::at(pool, n);
            assert!(reached[n] || node.kind == 16 && node.operands[0] < 32, "node {n} of {records:?} is not reached");
            node.used().iter().for_each(|&m| reached[m] |= reached[n]);
        }
    }

    /// Each register's term is the block's own.
    fn same_terms(&self, records: &[Record]) {
        let mut pool = words(&vec![0; 4 * (32 + 768 * records.len())]);
        let mut results = words(&[0; 34]);
        assert_eq!(native::lower_block(&mut pool, &records.concat(), &mut results), 0);
        let plain = results.items();
        for register in 0..32 {
            let dump = |pool: &[u64], count: u64, node: u64| {
                let mut out = words(&vec![0; 4 * count as usize]);
                let (number, after) = native::canonical((pool, count as usize, node as usize), &mut out);
                assert_eq!(number, 0);
                out.items()[..4 * after].to_vec()
            };
            let ours = dump(self.pool.items(), self.results[32], self.results[register]);
            assert!(ours == dump(pool.items(), plain[32], plain[register]), "register {register} of {records:?}");
        }
    }
}

/// One block at a start, with the given places; its error number and the bit.
fn try_block(r: &mut Rng, places: usize, records: &[Record], start: &[u128; 32]) -> (u64, bool) {
    let (want, position) = number_within(MOST_RECORDS, room(records.len()), 4 * places, records);
    let made = lowered(r, places, records);
    assert_eq!(made.number, want, "{records:?}");
    // the runner needs no places, and takes more records
    let (number, [at, bit], after) = native::run_with_bit(start, &records.concat());
    let (run_want, run_at) = number_within(85, 0, 0, records);
    let flag = run_want == 0 && saturates(records, start);
    assert_eq!((number, at, bit), (run_want, run_at as u64, u64::from(flag)), "{records:?} at {start:x?}");
    assert!(number == 0 || after == *start);
    if want == 0 {
        made.accepted(records);
        assert_eq!(made.bit(start), u64::from(flag), "{records:?} at {start:x?}");
    } else {
        made.refused(position);
    }
    (want, flag)
}

/// Every legal form on registers 0, 1 and 2, and the greatest number of nodes that one adds: a block of one has 33 other nodes.
fn forms(r: &mut Rng) -> (u64, usize) {
    let (mut count, mut most) = (0, 0);
    for (operation, arrangement) in (1..=67).flat_map(|operation| (0..7).map(move |arrangement| (operation, arrangement))) {
        if form_number(operation, arrangement, 0) == 3 {
            continue;
        }
        let (least, greatest) = immediates(operation, arrangement);
        for i in least..=greatest {
            let record = [operation, arrangement, i, 0, 1, if has_second(operation) { 2 } else { 0 }];
            assert_eq!(record_number(&record), 0);
            let made = lowered(r, room(1), &[record]);
            assert_eq!(made.number, 0, "{record:?}");
            made.accepted(&[record]);
            most = most.max(made.count() - 33);
            count += 1;
        }
    }
    (count, most)
}

/// The limits: 31 records pass and 32 get 8; for the empty block 32 places get 6 and 33 pass, and the bit is the constant 0.
fn limits(r: &mut Rng) {
    let start = corners(r);
    let records: Vec<Record> = (0..32).map(|_| record(r, 32)).collect();
    assert_eq!(try_block(r, room(31), &records[..31], &start).0, 0);
    assert_eq!(try_block(r, room(31) - 1, &records[..31], &start).0, 6);
    assert_eq!(try_block(r, 65535, &records, &start).0, 8);
    assert_eq!(try_block(r, 32, &[], &start).0, 6);
    assert_eq!(try_block(r, 33, &[], &start), (0, false));
    let empty = lowered(r, 33, &[]);
    let bit = Node::at(empty.pool.items(), empty.results[BIT] as usize);
    assert_eq!((empty.count(), bit.kind, bit.width, bit.data), (33, 2, 1, [0, 0]));
}

/// Mostly short blocks, so that the bit is 0 as often as 1.
fn block(r: &mut Rng, turn: u64) -> (Vec<Record>, [u128; 32]) {
    let long = match turn % 64 {
        63 => 28 + r.below(8),
        62 => 80 + r.below(8),
        _ => r.below(4),
    };
    let registers = r.one_of(&[2, 5, 32]);
    let mut records: Vec<Record> = (0..long).map(|_| record(r, registers)).collect();
    if turn % 9 == 8 {
        spoil(r, &mut records);
    }
    let start = match turn % 4 {
        0 => corners(r),
        1 => evaluate_part::start(r),
        // small lanes, which seldom saturate
        2 => std::array::from_fn(|_| r.wide() & 0x0101_0101_0101_0101_0101_0101_0101_0101),
        // the least number in every lane: the one product that is clamped
        _ => [r.one_of(&[0x80, 0x8000, 0x8000_0000, 1 << 63, 0x8000_8000, 0x8000_0000_8000_0000]) * r.one_of(&[1, 1 + (1 << 64)]); 32],
    };
    (records, start)
}

pub fn main(count: u64) {
    let mut r = Rng(0x510e_527f_ade6_82d1);
    let (listed, most) = forms(&mut r);
    limits(&mut r);
    let (mut refused, mut flags, mut operations) = (0u64, [0u64; 2], [[0u64; 2]; 68]);
    for turn in 0..count {
        let (records, start) = block(&mut r, turn);
        let places = if turn % 16 == 15 { room(records.len()) - 1 + r.below(2) as usize } else { room(records.len().min(MOST_RECORDS)) };
        let (number, flag) = try_block(&mut r, places, &records, &start);
        if number != 0 {
            refused += 1;
            continue;
        }
        flags[usize::from(flag)] += 1;
        if let [one] = records.as_slice() {
            operations[one[0] as usize][usize::from(flag)] += 1;
        }
        if turn % 100 == 0 {
            lowered(&mut r, room(records.len()), &records).same_terms(&records);
        }
    }
    let may = |operation: usize| matches!(operation, 2..=4 | 13..=16 | 19..=22 | 27..=29 | 32..=55);
    let seen = |operation: usize| operations[operation][0] > 0 && (operations[operation][1] > 0) == may(operation);
    assert!(count < 50_000 || (1..=67).all(seen) && refused > 0, "{operations:?}");
    let [clear, set] = flags;
    println!("saturation: {count} blocks, {refused} refused, {set} saturate and {clear} do not, by term and by runner; no form of {listed} adds more than {most} nodes");
}

fn lines(path: &str) -> Vec<String> {
    let text = std::fs::read_to_string(path).expect(path);
    text.lines().filter(|line| !line.starts_with('#')).map(str::to_string).collect()
}

fn numbers(text: &str) -> Record {
    let all: Vec<u64> = text.split(' ').take(6).map(|word| word.parse().expect("a number")).collect();
    all.try_into().expect("six numbers")
}

fn register(word: &str) -> u128 {
    u128::from_str_radix(word, 16).expect("a register")
}

/// Term and runner give Arm's flag, and so does the judge.
fn flag_is(r: &mut Rng, records: &[Record], start: &[u128; 32], flag: &str) -> bool {
    let (number, found) = try_block(r, room(records.len().min(MOST_RECORDS)), records, start);
    assert_eq!(u64::from(found).to_string(), flag, "{records:?} at {start:x?}");
    number == 0
}

/// The flags of all values in the files, whatever the number is.
pub fn values(_: u64) {
    let folder = std::env::var("SHARED").unwrap_or("../shared".to_string()) + "/vectors";
    if !std::path::Path::new(&folder).is_dir() {
        println!("skipped: saturation compared with Arm values (no {folder})");
        return;
    }
    let mut r = Rng(0x1f83_d9ab_fb41_bd6b);
    let mut single = 0;
    for line in lines(&format!("{folder}/arm-values.txt")) {
        let (record, words) = (numbers(&line), line.split(' ').collect::<Vec<_>>());
        let mut start: [u128; 32] = std::array::from_fn(|_| r.wide());
        for (at, word) in record[3..].iter().zip(&words[6..9]).filter(|(_, word)| **word != "-") {
            start[*at as usize] = register(word);
        }
        assert!(flag_is(&mut r, &[record], &start, words[10]));
        single += 1;
    }
    let (mut records, mut start, mut blocks, mut by_term) = (vec![], [0; 32], 0, 0);
    for line in lines(&format!("{folder}/blocks.txt")) {
        let mut words = line.split(' ');
        match words.next().expect("a word") {
            "B" => records.clear(),
            "S" => start = std::array::from_fn(|_| register(words.next().expect("32 registers"))),
            "E" => {}
            "Q" => {
                by_term += u64::from(flag_is(&mut r, &records, &start, words.next().expect("a flag")));
                blocks += 1;
            }
            _ => records.push(numbers(&line)),
        }
    }
    assert!(single > 0 && by_term > 0);
    println!("saturation: the flags of {single} instructions and {blocks} blocks are Arm's by the runner, of {by_term} blocks by the term; the others are too long for one");
}

/// Blocks with a start each: number and position of the lowering with the bit's value, number and position of the run with its bit.
pub fn stored(count: u64) -> Sample {
    let mut r = Rng(0x9b05_688c_2b3e_6c1f);
    let (mut input, mut answers) = (String::new(), String::new());
    for turn in 0..count {
        let (records, start) = block(&mut r, turn);
        let places = if turn % 16 == 15 { room(records.len()) - 1 } else { room(records.len().min(MOST_RECORDS)) }.min(65535);
        input += &format!("{} {places}", records.len());
        for number in records.concat() {
            input += &format!(" {number}");
        }
        for word in native::register_words(&start) {
            input += &format!(" {word:x}");
        }
        input += "\n";
        let (number, position) = number_within(MOST_RECORDS, room(records.len()), 4 * places, &records);
        let (run_number, run_position) = number_within(85, 0, 0, &records);
        let flag = u64::from(run_number == 0 && saturates(&records, &start));
        answers += &format!("{number} {position} {} {run_number} {run_position} {flag}\n", if number == 0 { flag } else { 0 });
    }
    Sample { input, answers }
}
