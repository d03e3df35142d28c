//! Writes the script that asks a solver whether two routines can leave different numbers in v0: each is lowered on its own, the pools are
//! joined, and the script is about the two terms in the joined pool.
use neon_terms::{Arrangement, Kind, Operation, Pool, Record, Refusal, View};

fn script() -> Result<String, Refusal> {
    // ushr v0.2d, v1.2d, #3; and ushr v2.2d, v1.2d, #1, then ushr v0.2d, v2.2d, #2
    let shift = |i, d, n| Record::new(Operation::USHR, Arrangement::D2).immediate(i).d(d).n(n);
    let (old, before) = Pool::from_block(&[shift(3, 0, 1)])?;
    let (new, after) = Pool::from_block(&[shift(1, 2, 1), shift(2, 0, 2)])?;
    let (both, eq) = Pool::join(&old, before[0], &new, after[0])?;
    let Some(View { kind: Kind::Eq(a, b), .. }) = both.view(eq) else { unreachable!("the last node of a joined pool is the Eq") };
    both.script(a, b)
}

fn main() {
    match script() {
        Ok(script) => print!("{script}"),
        Err(refusal) => {
            eprintln!("difference: {refusal}");
            std::process::exit(1);
        }
    }
}
