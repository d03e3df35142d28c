//! The 32 registers, and a block run on them.
use crate::{Record, Refusal, list_answer, raw};

/// What v0 to v31 hold, v0 first.
#[derive(Debug, Clone, Copy, PartialEq, Eq, Hash, Default)]
pub struct Registers(pub [u128; 32]);

impl Registers {
    /// Two words a register, the low one first.
    pub(crate) fn words(&self) -> [u64; 64] {
        std::array::from_fn(|k| (self.0[k / 2] >> (64 * (k % 2))) as u64)
    }

    /// Runs a block: each register then holds what the Arm instructions leave in it. No pool and no term is made. The answer is whether
    /// some lane of some instruction saturated, as FPSR.QC would record. A block that
    /// [`Pool::from_block`](crate::Pool::from_block) refuses is refused here, and the registers stay as they were.
    ///
    /// ```
    /// use neon_terms::{Arrangement, Number, Operation, Record, Registers};
    /// let sum = Record::new(Operation::UQADD, Arrangement::B16).d(0).n(1).m(2);
    /// let shift = Record::new(Operation::USHR, Arrangement::D2).immediate(8).d(0).n(0);
    /// let mut registers = Registers::default();
    /// registers.0[1] = 0xff01;
    /// registers.0[2] = 0x0203;
    /// let saturated = registers.run(&[sum, shift])?;
    /// assert_eq!((registers.0[0], saturated), (0xff, true));
    /// assert!(!registers.run(&[shift])?);
    /// let refusal = registers.run(&[sum, shift.immediate(65)]).unwrap_err();
    /// assert_eq!((refusal.number, refusal.position, registers.0[0]), (Number::Immediate, Some(1), 0));
    /// # Ok::<(), neon_terms::Refusal>(())
    /// ```
    pub fn run(&mut self, records: &[Record]) -> Result<bool, Refusal> {
        let flat: Vec<u64> = records.iter().flat_map(Record::numbers).collect();
        let mut words = self.words();
        let (number, position, saturated) = raw::run_block(&mut words, &flat);
        list_answer(number, position)?;
        self.0 = std::array::from_fn(|r| u128::from(words[2 * r + 1]) << 64 | u128::from(words[2 * r]));
        Ok(saturated)
    }
}
