//! The value of a term at a start.
use crate::{Node, Pool, Refusal, Registers, answer, raw};

/// A term's value. See [`Pool::value`].
#[derive(Debug, Clone, Copy, PartialEq, Eq)]
pub struct Value {
    /// The lowest 128 bits.
    pub bits: u128,
    /// Bit 128, which only a term of 129 bits can have.
    pub top: bool,
    /// The visits made to nodes.
    pub visits: u64,
}

impl Pool {
    /// The value of a node's term if the registers contain `start`; a condition is 0 or 1.
    ///
    /// Each visit to a node counts, also to a shared one: of an Ite the condition and the chosen arm are visited, of any other node
    /// all operands. More than `allowance` is [`Number::Visits`](crate::Number::Visits); a larger allowance never changes a value.
    ///
    /// ```
    /// use neon_terms::{Arrangement, Number, Operation, Pool, Record, Registers};
    /// let (pool, registers) = Pool::from_block(&[Record::new(Operation::UQADD, Arrangement::B16).d(0).n(1).m(2)])?;
    /// let mut start = Registers::default();
    /// start.0[1] = 0xff01;
    /// start.0[2] = 0x0203;
    /// let value = pool.value(registers[0], &start, 10_000)?;
    /// assert_eq!(value.bits, 0xff04);
    /// let refusal = pool.value(registers[0], &start, value.visits - 1).unwrap_err();
    /// assert_eq!(refusal.number, Number::Visits);
    /// # Ok::<(), neon_terms::Refusal>(())
    /// ```
    pub fn value(&self, node: Node, start: &Registers, allowance: u64) -> Result<Value, Refusal> {
        let (number, [low, high, top], visits) = raw::value(&self.words, self.count, node.0, &start.words(), allowance);
        answer(number)?;
        Ok(Value { bits: u128::from(high) << 64 | u128::from(low), top: top != 0, visits })
    }
}
