use neon_terms::{Arrangement, Operation, Pool, Record, Refusal};

fn main() -> Result<(), Refusal> {
    let shift = Record::new(Operation::USHR, Arrangement::D2).immediate(1).d(0).n(1);
    let (pool, registers) = Pool::from_block(&[shift])?;
    println!("{shift}: {}", pool.text(registers[0])?);
    Ok(())
}
