//! Lowers two blocks that might do the same, and prints the terms of v0.
use neon_terms::{Arrangement, Operation, Pool, Record};

fn show(records: &[Record]) {
    match Pool::from_block(records) {
        Ok((pool, registers)) => match pool.text(registers[0]) {
            Ok(text) => println!("{text}"),
            Err(refusal) => println!("no text: {refusal}"),
        },
        Err(refusal) => println!("refused: {refusal}"),
    }
}

fn main() {
    // ushr v0.2d, v1.2d, #1; the same by a negative register shift; a shift of 65 bits, which is none
    let by_number = Record::new(Operation::USHR, Arrangement::D2).immediate(1).d(0).n(1);
    let by_register = Record::new(Operation::USHL, Arrangement::D2).d(0).n(1).m(2);
    show(&[by_number]);
    show(&[by_register]);
    show(&[by_number, by_number.immediate(65)]);
}
