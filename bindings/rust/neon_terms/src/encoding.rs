//! A routine's bytes as its records: A64 words, a word as a record and back, and lines of columns.
use std::ops::Deref;

use crate::{Record, Refusal, list_answer, raw};

/// A line of columns: six fields of four characters and the newline.
const LINE: usize = 25;

impl Record {
    /// The record that an instruction word encodes. A word that encodes no legal form is refused by [`Number::Word`](crate::Number::Word).
    ///
    /// ```
    /// use neon_terms::{Arrangement, Number, Operation, Record};
    /// let record = Record::from_word(0x6f7f0420)?;
    /// assert_eq!(record, Record::new(Operation::USHR, Arrangement::D2).immediate(1).d(0).n(1));
    /// assert_eq!(record.to_word()?, 0x6f7f0420);
    /// // ret
    /// assert_eq!(Record::from_word(0xd65f03c0).unwrap_err().number, Number::Word);
    /// # Ok::<(), neon_terms::Refusal>(())
    /// ```
    pub fn from_word(word: u32) -> Result<Self, Refusal> {
        Ok(Block::from_bytes(&word.to_le_bytes())?.records[0])
    }

    /// The instruction word of a legal record.
    pub fn to_word(&self) -> Result<u32, Refusal> {
        let mut bytes = [0; 4];
        let (number, _, position) = raw::write_words(&self.numbers(), &mut bytes);
        list_answer(number, position)?;
        Ok(u32::from_le_bytes(bytes))
    }
}

/// The records of a routine, in order.
///
/// ```
/// use neon_terms::{Block, Pool};
/// // ushr v0.2d, v1.2d, #1 and sqadd v2.16b, v0.16b, v3.16b, as in memory
/// let bytes = [0x20, 0x04, 0x7f, 0x6f, 0x02, 0x0c, 0x23, 0x4e];
/// let block = Block::from_bytes(&bytes)?;
/// assert_eq!(block.len(), 2);
/// assert_eq!(block.to_bytes()?, bytes);
/// let (pool, registers) = Pool::from_block(&block)?;
/// assert_eq!(pool.text(registers[1])?, "v1");
/// // an incomplete last word
/// assert_eq!(Block::from_bytes(&bytes[..7]).unwrap_err().to_string(), "word 1 encodes no legal form");
/// # Ok::<(), neon_terms::Refusal>(())
/// ```
#[derive(Debug, Clone, PartialEq, Eq)]
pub struct Block {
    records: Vec<Record>,
}

impl Block {
    /// The records of instruction words, four bytes each, the lowest first.
    pub fn from_bytes(bytes: &[u8]) -> Result<Self, Refusal> {
        let mut flat = vec![0; 6 * (bytes.len() / 4)];
        let (number, _, position) = raw::read_words(bytes, &mut flat);
        list_answer(number, position)?;
        Ok(Self::of(&flat))
    }

    /// The records of lines of columns: operation, arrangement, i, d, n and m, four characters each, right-justified decimals. The last newline may
    /// be missing. Unknown numbers are read too; functions on blocks refuse them.
    ///
    /// ```
    /// use neon_terms::{Block, Number};
    /// let block = Block::from_lines(b"   6   6   1   0   1   0\n  19   1   0   2   0   3\n")?;
    /// assert_eq!(block.iter().map(|record| record.to_string()).collect::<Vec<_>>(), ["ushr v0.2d, v1.2d, #1", "sqadd v2.16b, v0.16b, v3.16b"]);
    /// assert!(Block::from_lines(b"")?.is_empty());
    /// let refusal = Block::from_lines(b"   6   6   1   0   1   0\n6 6 1 0 1 0\n").unwrap_err();
    /// assert_eq!((refusal.number, refusal.position), (Number::Line, Some(1)));
    /// # Ok::<(), neon_terms::Refusal>(())
    /// ```
    pub fn from_lines(bytes: &[u8]) -> Result<Self, Refusal> {
        let mut flat = vec![0; 6 * bytes.len().div_ceil(LINE)];
        let (number, _, position) = raw::read_lines(bytes, &mut flat);
        list_answer(number, position)?;
        Ok(Self::of(&flat))
    }

    fn of(flat: &[u64]) -> Self {
        let record = |r: &[u64]| Record { operation: r[0], arrangement: r[1], i: r[2], d: r[3], n: r[4], m: r[5] };
        Self { records: flat.chunks_exact(6).map(record).collect() }
    }

    /// The bytes of the records' words.
    pub fn to_bytes(&self) -> Result<Vec<u8>, Refusal> {
        let flat: Vec<u64> = self.records.iter().flat_map(Record::numbers).collect();
        let mut bytes = vec![0; 4 * self.records.len()];
        let (number, _, position) = raw::write_words(&flat, &mut bytes);
        list_answer(number, position)?;
        Ok(bytes)
    }
}

impl Deref for Block {
    type Target = [Record];

    fn deref(&self) -> &[Record] {
        &self.records
    }
}
