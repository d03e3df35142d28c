//! Runs of both routines by the proved runner: what differs is shown by one.
use neon_terms::Registers;

use crate::pair::{Pair, Register};
use crate::starts::Starts;
use crate::verdict::Difference;

/// Instructions that are run in all, about 0.5 s, and the bounds on the number of starts. A number and no time, so that an answer comes again.
const INSTRUCTIONS: usize = 4_000_000;
const FEWEST: usize = 20_000;
const MOST: usize = 200_000;

/// How many starts are run for a pair, unless another number is asked for.
pub fn starts(pair: &Pair) -> usize {
    (INSTRUCTIONS / pair.len().max(1)).clamp(FEWEST, MOST)
}

/// Tells of the registers, of those left, that differ after some run, with that run; gives back the others.
pub fn search(pair: &Pair, mut left: Vec<Register>, starts: usize, over: &dyn Fn() -> bool, mut found: impl FnMut(Register, Difference)) -> Vec<Register> {
    let matter = (0..32).filter(|register| left.iter().any(|&counted| pair.reads(counted).contains(register))).collect();
    for (k, start) in Starts::new(matter).take(starts).enumerate() {
        if left.is_empty() || k % 64 == 0 && over() {
            break;
        }
        let (old, new) = (pair.old.run(&start), pair.new.run(&start));
        left.retain(|&register| {
            let differs = register.of(&old) != register.of(&new);
            // a register for which no difference can be given stays
            let difference = differs.then(|| difference(pair, register, &start)).flatten();
            difference.map(|difference| found(register, difference)).is_none()
        });
    }
    left
}

/// The difference of a register after runs from a start, or from a smaller one; None if the register is equal there.
pub fn difference(pair: &Pair, register: Register, start: &Registers) -> Option<Difference> {
    let differs = |start: &Registers| {
        let (old, new) = pair.results(register, start);
        old != new
    };
    if !differs(start) {
        return None;
    }
    let matter = pair.reads(register);
    let start = smaller(start, &matter, differs);
    let (old, new) = pair.results(register, &start);
    Some(Difference { start, matter, old, new })
}

/// Registers that do not matter become 0; whole registers become 0, then single bits from the top on, as long as the difference stays: fewer bits are
/// easier to read.
fn smaller(start: &Registers, registers: &[u8], differs: impl Fn(&Registers) -> bool) -> Registers {
    let mut only = Registers::default();
    for &register in registers {
        only.0[usize::from(register)] = start.0[usize::from(register)];
    }
    let mut start = if differs(&only) { only } else { *start };
    let masks = [0].into_iter().chain((0..128).rev().map(|bit| !(1u128 << bit)));
    for mask in masks {
        for &register in registers {
            let mut fewer = start;
            fewer.0[usize::from(register)] &= mask;
            if fewer != start && differs(&fewer) {
                start = fewer;
            }
        }
    }
    start
}
