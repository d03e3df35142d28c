//! The text of each A64 word of standard input, eight hexadecimal digits a line: for tests that compare it with a disassembler.
use std::io::{BufWriter, Write, stdin, stdout};

fn main() {
    let mut out = BufWriter::new(stdout().lock());
    for line in stdin().lines() {
        let line = line.expect("standard input can be read");
        let word = u32::from_str_radix(line.trim(), 16).expect("eight hexadecimal digits");
        writeln!(out, "{}", neon_equal::instruction_text(word, 0)).expect("standard output can be written");
    }
}
