//! Blocks with a saturation bit.
use crate::{Node, Pool, Record, Refusal, list_answer, raw};

impl Pool {
    /// A new pool with the terms of the 32 registers after the records, and a term of one bit that is 1 exactly if some lane of some
    /// instruction saturates, as FPSR.QC would record from a cleared flag. At most 31 records are accepted.
    ///
    /// ```
    /// use neon_terms::{Arrangement, Operation, Pool, Record, Registers};
    /// let sum = Record::new(Operation::UQADD, Arrangement::B16).d(0).n(1).m(2);
    /// let shift = Record::new(Operation::USHR, Arrangement::D2).immediate(8).d(0).n(0);
    /// let (pool, registers, saturated) = Pool::from_block_saturation(&[sum, shift])?;
    /// let (plain, same) = Pool::from_block(&[sum, shift])?;
    /// assert_eq!(pool.text(registers[0])?, plain.text(same[0])?);
    /// let mut start = Registers::default();
    /// for (byte, bit) in [(0xfe, 0), (0xff, 1)] {
    ///     (start.0[1], start.0[2]) = (byte, 1);
    ///     assert_eq!(pool.value(saturated, &start, 1 << 20)?.bits, bit);
    ///     assert_eq!(start.run(&[sum, shift])?, bit == 1);
    /// }
    /// assert_eq!(Pool::from_block_saturation(&[sum; 32]).unwrap_err().to_string(), "long block");
    /// # Ok::<(), neon_terms::Refusal>(())
    /// ```
    pub fn from_block_saturation(records: &[Record]) -> Result<(Self, [Node; 32], Node), Refusal> {
        let flat: Vec<u64> = records.iter().flat_map(Record::numbers).collect();
        let mut words = vec![0; 4 * (33 + raw::SATURATION_RESERVE * records.len().min(raw::SATURATION_RECORDS))];
        let mut results = [0; raw::SATURATION_RESULTS];
        let number = raw::lower_block_saturation(&mut words, &flat, &mut results);
        list_answer(number, results[33] as usize)?;
        let count = results[32] as usize;
        words.truncate(4 * count);
        Ok((Self { words, count }, std::array::from_fn(|r| Node(results[r] as usize)), Node(results[34] as usize)))
    }
}
