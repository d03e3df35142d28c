//! The line program on random bytes and mutated lines, against the oracle's `lines`.
use std::io::Write;
use std::process::{Command, Stdio};

use crate::blocks_part::{record, spoil};
use crate::forms;
use crate::judge::Record;
use crate::pools::Rng;
use crate::run;

const PROGRAM: &str = "target/bin/lanes";

fn line(r: &mut Rng) -> Vec<u8> {
    let mut records: [Record; 1] = [record(r, 32)];
    if r.below(4) == 0 {
        spoil(r, &mut records);
    }
    let mut line: Vec<u8> = records[0].iter().flat_map(|x| format!("{x:4}").into_bytes()).collect();
    match r.below(12) {
        0 => {
            let at = r.below(line.len() as u64) as usize;
            line[at] = r.one_of(b" 0123456789-+\0\r\t\xffA");
        }
        1 => line.truncate(r.below(26) as usize),
        2 => line.extend((0..r.below(300)).map(|_| b' ')),
        3 => {
            let at = r.below(line.len() as u64 + 1) as usize;
            line.insert(at, r.next() as u8);
        }
        4 => line = (0..r.below(40)).map(|_| r.next() as u8).collect(),
        5 if r.below(40) == 0 => line = (0..r.below(200_000)).map(|_| b'0' + r.below(10) as u8).collect(),
        _ => {}
    }
    line
}

fn answer(input: &[u8]) -> Vec<u8> {
    let mut child = Command::new(PROGRAM).stdin(Stdio::piped()).stdout(Stdio::piped()).spawn().expect("the program");
    let mut to = child.stdin.take().expect("its input");
    let bytes = input.to_vec();
    let writer = std::thread::spawn(move || to.write_all(&bytes));
    let output = child.wait_with_output().expect("its output");
    writer.join().expect("a thread").expect("all is read");
    assert!(output.status.success(), "the program ended with {}", output.status);
    output.stdout
}

fn want(input: &[u8]) -> Vec<u8> {
    forms::lines(input).iter().flat_map(|line| run::line_answer(line).into_bytes()).collect()
}

pub fn main(count: u64) {
    let mut r = Rng(0x6a09_e667_f3bc_c909);
    let (mut lines, mut bytes) = (0, 0);
    let mut try_it = |input: &[u8]| {
        let (got, want) = (answer(input), want(input));
        if got != want {
            let at = got.iter().zip(&want).take_while(|(a, b)| a == b).count();
            std::fs::write("target/lines-input", input).expect("a file");
            panic!("the answers differ from byte {at} on; the input is in target/lines-input");
        }
        lines += forms::lines(input).len();
        bytes += input.len();
    };
    let all: String = forms::all().iter().map(|form| forms::write(form) + "\n").collect();
    for input in ["", "\n", "\n\n", " ", all.as_str(), &all[..all.len() - 1]] {
        try_it(input.as_bytes());
    }
    for turn in 0..count {
        let mut input = vec![];
        if turn % 8 == 7 {
            input.extend((0..r.below(5000)).map(|_| if r.below(30) == 0 { b'\n' } else { r.next() as u8 }));
        } else {
            for _ in 0..r.below(500) {
                input.extend(line(&mut r));
                input.push(b'\n');
            }
            if r.below(2) == 0 {
                input.pop();
            }
        }
        try_it(&input);
    }
    println!("lines: {} inputs, {lines} lines, {bytes} bytes: the program's answers equal the Rust's", count + 6);
}
