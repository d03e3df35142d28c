//! The terms' values at the starts of the files of Arm values.
use crate::evaluate;
use crate::judge::{MOST_RECORDS, RESERVE};
use crate::native::{self, Words, words};
use crate::pools::Rng;
use std::collections::HashSet;

fn number(word: &str) -> u64 {
    word.parse().expect("a number")
}

fn register(word: &str) -> u128 {
    u128::from_str_radix(word, 16).expect("a register")
}

/// The registers after the block, by the terms' values at the start.
fn run(pool: &mut Words, records: &[u64], start: &[u128; 32]) -> [u128; 32] {
    let mut results = words(&[0; 34]);
    assert_eq!(native::lower_block(pool, records, &mut results), 0, "{records:?}");
    let entries = results.items();
    let values = evaluate::values(pool.items(), entries[32] as usize, start);
    std::array::from_fn(|r| evaluate::low(values[entries[r] as usize]))
}

fn lines(path: &str) -> Vec<String> {
    let text = std::fs::read_to_string(path).expect(path);
    text.lines().filter(|line| !line.starts_with('#')).map(str::to_string).collect()
}

fn instructions(pool: &mut Words, path: &str) -> u64 {
    let mut r = Rng(0x2545_f491_4f6c_dd1d);
    let (mut count, mut operations) = (0, HashSet::new());
    for line in lines(path) {
        let words: Vec<&str> = line.split(' ').collect();
        let record: Vec<u64> = words[..6].iter().map(|w| number(w)).collect();
        let mut start: [u128; 32] = std::array::from_fn(|_| r.wide());
        for (at, word) in record[3..].iter().zip(&words[6..9]) {
            if *word != "-" {
                start[*at as usize] = register(word);
            }
        }
        let mut want = start;
        want[record[3] as usize] = register(words[9]);
        assert_eq!(run(pool, &record, &start), want, "{line}");
        count += 1;
        operations.insert(record[0]);
    }
    assert_eq!(operations.len(), 67, "operations in {path}");
    count
}

fn blocks(pool: &mut Words, path: &str) -> (u64, u64) {
    let (mut records, mut start) = (vec![], [0; 32]);
    let (mut blocks, mut all) = (0, 0);
    for line in lines(path) {
        let mut words = line.split(' ');
        match words.next().expect("a word") {
            "B" => records.clear(),
            "S" => start = std::array::from_fn(|_| register(words.next().expect("32 registers"))),
            "E" => {
                let end = std::array::from_fn(|_| register(words.next().expect("32 registers")));
                assert_eq!(run(pool, &records, &start), end, "block {blocks}");
                blocks += 1;
                all += records.len() as u64 / 6;
            }
            "Q" => {}
            _ => records.extend(line.split(' ').map(number)),
        }
    }
    assert!(all > 0, "no block in {path}");
    (blocks, all)
}

/// All values of the files, whatever the number is.
pub fn main(_: u64) {
    let folder = std::env::var("SHARED").unwrap_or("../shared".to_string()) + "/vectors";
    if !std::path::Path::new(&folder).is_dir() {
        println!("skipped: compare with Arm values (no {folder})");
        return;
    }
    let mut pool = words(&vec![0; 4 * (32 + RESERVE * MOST_RECORDS)]);
    let count = instructions(&mut pool, &format!("{folder}/arm-values.txt"));
    let (blocks, records) = blocks(&mut pool, &format!("{folder}/blocks.txt"));
    println!("values: {count} instructions and {blocks} blocks of {records} records: the terms' values are Arm's in all 32 registers");
}
