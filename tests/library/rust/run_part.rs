//! The runner against the table on integers (`table`, and the oracle's own), against Arm's values, and against the evaluator on the terms
//! of the same block.
use crate::arm;
use crate::blocks_part::{record, spoil};
use crate::evaluate_part;
use crate::forms;
use crate::judge::{Record, block_number};
use crate::native::{self, words};
use crate::pools::Rng;
use crate::table;

/// No block is refused for want of room.
const ROOM: usize = 4 * 65535;

/// Registers of lanes with corner values, at one lane width each.
pub fn corners(r: &mut Rng) -> [u128; 32] {
    std::array::from_fn(|_| {
        let n = r.one_of(&[8u32, 16, 32, 64]);
        let lane = |r: &mut Rng| {
            let top = 1u128 << (n - 1);
            let any = r.wide();
            r.one_of(&[0, 1, 2, top - 1, top, top + 1, 2 * top - 1, 2 * top - 2, u128::from(n), 128, 127, 129, 0xff, any]) & (2 * top - 1)
        };
        (0..128 / n).fold(0, |v, j| v | lane(r) << (n * j))
    })
}

fn oracle_record(r: &Record) -> forms::Record {
    let [op, arr, imm, d, n, m] = r.map(|x| x as u16);
    forms::Record { op, arr, imm, d, n, m }
}

/// One block; the number that it gets.
fn try_block(r: &mut Rng, records: &[Record], start: &[u128; 32]) -> u64 {
    let mut flat: Vec<u64> = records.concat();
    // numbers after the last whole record are not read
    flat.extend((0..r.below(6)).map(|_| r.next()));
    let (number, position, after) = native::run_block(start, &flat);
    let (want, at) = block_number(ROOM, records);
    assert_eq!((number, position), (want, at as u64), "{records:?}");
    if number != 0 {
        assert_eq!(after, *start, "a refused block changed the registers: {records:?}");
        return number;
    }
    let (mut judged, mut oracles) = (*start, *start);
    table::run(records, &mut judged);
    let block: Vec<forms::Record> = records.iter().map(oracle_record).collect();
    arm::run(&block, &mut oracles);
    assert_eq!(judged, oracles, "the two judges differ: {records:?} at {start:x?}");
    assert_eq!(after, judged, "{records:?} at {start:x?}");
    0
}

/// The same block lowered: each register's term has the runner's value, by the evaluator.
fn evaluated(records: &[Record], start: &[u128; 32]) -> u64 {
    let mut pool = words(&vec![0; 4 * (32 + 768 * records.len())]);
    let mut results = words(&[0; 34]);
    assert_eq!(native::lower_block(&mut pool, &records.concat(), &mut results), 0);
    let (_, _, after) = native::run_block(start, &records.concat());
    let entries = results.items();
    let mut found = 0;
    for (register, want) in after.iter().enumerate() {
        let (number, value, _) = native::value(pool.items(), entries[32] as usize, entries[register] as usize, start, 1 << 20);
        if number == 0 {
            assert_eq!(value, [*want as u64, (*want >> 64) as u64, 0], "register {register} of {records:?}");
            found += 1;
        } else {
            assert_eq!(number, 11);
        }
    }
    found
}

pub fn main(count: u64) {
    let mut r = Rng(0x3c6e_f372_fe94_f82b);
    let (mut records_run, mut refused, mut found, mut operations) = (0u64, 0u64, 0u64, [0u64; 68]);
    for turn in 0..count {
        let long = match turn % 64 {
            63 => 80 + r.below(12),
            _ => r.below(8),
        };
        let registers = r.one_of(&[2, 5, 32]);
        let mut records: Vec<Record> = (0..long).map(|_| record(&mut r, registers)).collect();
        if turn % 7 == 6 {
            spoil(&mut r, &mut records);
        }
        let start = if turn % 2 == 0 { corners(&mut r) } else { evaluate_part::start(&mut r) };
        if try_block(&mut r, &records, &start) != 0 {
            refused += 1;
            continue;
        }
        records_run += long;
        for record in &records {
            operations[record[0] as usize] += 1;
        }
        if turn % 50 == 0 {
            found += evaluated(&records, &start);
        }
    }
    assert!(count < 1000 || (operations[1..].iter().all(|&k| k > 0) && refused > 0 && found > 0), "{operations:?}");
    println!("run: {count} blocks, {refused} refused, {records_run} records: registers equal the table's; {found} terms have the same values by the evaluator");
}

fn number(word: &str) -> u64 {
    word.parse().expect("a number")
}

fn register(word: &str) -> u128 {
    u128::from_str_radix(word, 16).expect("a register")
}

fn lines(path: &str) -> Vec<String> {
    let text = std::fs::read_to_string(path).expect(path);
    text.lines().filter(|line| !line.starts_with('#')).map(str::to_string).collect()
}

fn instructions(path: &str) -> u64 {
    let mut r = Rng(0xa54f_f53a_5f1d_36f1);
    let mut count = 0;
    for line in lines(path) {
        let words: Vec<&str> = line.split(' ').collect();
        let record: Vec<u64> = words[..6].iter().map(|w| number(w)).collect();
        let mut start: [u128; 32] = std::array::from_fn(|_| r.wide());
        for (at, word) in record[3..].iter().zip(&words[6..9]) {
            if *word != "-" {
                start[*at as usize] = register(word);
            }
        }
        let mut want = start;
        want[record[3] as usize] = register(words[9]);
        assert_eq!(native::run_block(&start, &record), (0, 0, want), "{line}");
        count += 1;
    }
    count
}

fn blocks(path: &str) -> (u64, u64) {
    let (mut records, mut start) = (vec![], [0; 32]);
    let (mut blocks, mut all) = (0, 0);
    for line in lines(path) {
        let mut words = line.split(' ');
        match words.next().expect("a word") {
            "B" => records.clear(),
            "S" => start = std::array::from_fn(|_| register(words.next().expect("32 registers"))),
            "E" => {
                let end = std::array::from_fn(|_| register(words.next().expect("32 registers")));
                assert_eq!(native::run_block(&start, &records), (0, 0, end), "block {blocks}");
                blocks += 1;
                all += records.len() as u64 / 6;
            }
            "Q" => {}
            _ => records.extend(line.split(' ').map(number)),
        }
    }
    (blocks, all)
}

/// All values of the files, whatever the number is.
pub fn values(_: u64) {
    let folder = std::env::var("SHARED").unwrap_or("../shared".to_string()) + "/vectors";
    if !std::path::Path::new(&folder).is_dir() {
        println!("skipped: runs compared with Arm values (no {folder})");
        return;
    }
    let count = instructions(&format!("{folder}/arm-values.txt"));
    let (blocks, records) = blocks(&format!("{folder}/blocks.txt"));
    assert!(count > 0 && blocks > 0);
    println!("run: {count} instructions and {blocks} blocks of {records} records leave Arm's values in all 32 registers");
}
