//! Whether two routines leave equal numbers in v0 at every start, without a solver: their graph folds, and an empty refutation is accepted.
use neon_terms::{Arrangement, Node, Number, Operation, Pool, Record, Refusal, Workspace};

fn show(work: &mut Workspace, what: &str, first: (&Pool, Node), second: (&Pool, Node)) -> Result<(), Refusal> {
    match work.equal(first, second, 127, 0, &[]) {
        Ok(()) => println!("{what}: equal"),
        Err(Refusal { number: Number::Refutation, position: Some(step) }) => println!("{what}: {}, step {step}", Number::Refutation.code()),
        Err(refusal) => return Err(refusal),
    }
    Ok(())
}

fn main() -> Result<(), Refusal> {
    let shift = |i, d, n| Record::new(Operation::USHR, Arrangement::D2).immediate(i).d(d).n(n);
    let (once, v) = Pool::from_block(&[shift(3, 0, 1)])?;
    let (twice, w) = Pool::from_block(&[shift(1, 2, 1), shift(2, 0, 2)])?;
    // after the first of the two v0 is as it was
    let (half, x) = Pool::from_block(&[shift(1, 2, 1)])?;
    let mut work = Workspace::default();
    show(&mut work, "ushr #3; ushr #1, ushr #2", (&once, v[0]), (&twice, w[0]))?;
    show(&mut work, "ushr #3; ushr #1", (&once, v[0]), (&half, x[0]))
}
