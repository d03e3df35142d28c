//! NEON instructions as SMT-LIB bit-vector terms.
//!
//! A [`Pool`] owns the words of its terms. [`Pool::from_block`] lowers a block of [`Record`]s and gives the node of each of the 32
//! registers; [`Pool::lower`] lowers one instruction on nodes that are there already. [`Registers::run`] runs a block on numbers, and
//! [`Pool::from_block_saturation`] makes beside the terms one that says whether anything saturates. [`Workspace::equal`] accepts proofs that
//! two terms have equal bits at every start.
//!
//! ```
//! use neon_terms::{Arrangement, Operation, Pool, Record};
//!
//! let record = Record::new(Operation::USHR, Arrangement::D2).immediate(1).d(0).n(1);
//! assert_eq!(record.to_string(), "ushr v0.2d, v1.2d, #1");
//! let (pool, registers) = Pool::from_block(&[record])?;
//! assert_eq!(pool.text(registers[0])?, "concat((v1[127:64] >>u 0x1:64), (v1[63:0] >>u 0x1:64))");
//! assert_eq!(pool.text(registers[7])?, "v7");
//! # Ok::<(), neon_terms::Refusal>(())
//! ```

mod assembly;
mod canonical;
mod encoding;
mod equal;
mod join;
mod operation;
mod raw;
mod record;
mod registers;
mod saturation;
mod script;
mod stack;
mod value;
mod version;
mod words;

pub use assembly::{Assembly, Operand, Part, Tail};
pub use canonical::Term;
pub use encoding::Block;
pub use equal::{Question, Workspace};
pub use operation::{Arrangement, Operation};
pub use raw::MOST_RECORDS;
pub use record::Record;
pub use registers::Registers;
pub use value::Value;
pub use version::{Version, WrongVersion, check as check_version};
pub use words::{Kind, Node, Nodes, RegisterSet, View};

use std::fmt;

/// Why an operation refuses, in the words of the numbers' table. The first in order wins.
#[derive(Debug, Clone, Copy, PartialEq, Eq, Hash)]
pub enum Number {
    /// The count is above the places, or a node breaks a rule.
    BadPool,
    /// Not 1 to 67.
    NoSuchOperation,
    /// No such arrangement, or the operation has none such.
    NoSuchForm,
    /// i is not one of the form's.
    Immediate,
    /// A wanted node is not there or has another width; an unwanted one is given. Of a script by lanes: not lo <= hi < 128.
    Source,
    /// Too few places are free.
    NoRoom,
    /// Above 31, m above 15 for an element of 16 bits, or m not 0 with no second source.
    Register,
    /// More than 85 records, with a saturation bit more than 31.
    LongBlock,
    /// The text is longer than the buffer.
    ShortBuffer,
    /// A line is not in columns.
    Line,
    /// The value of a term takes more visits than are allowed.
    Visits,
    /// A word that encodes no legal form, a broken last word among them.
    Word,
    /// The bits of a question are no cut of 128 bits: not lo <= hi < 128.
    Bits,
    /// A refutation is not accepted.
    Refutation,
    /// A number that this wrapper does not know, from an archive that is newer than it.
    Unknown(u64),
}

/// [`Pool::text`] tries buffers of so many bytes, and of 16 times as many, up to the longest.
const SHORT_TEXT: usize = 1 << 12;
const LONGEST_TEXT: usize = 1 << 24;

/// Each number with its word.
const NUMBERS: [(u64, Number, &str); 14] = [
    (1, Number::BadPool, "bad pool"),
    (2, Number::NoSuchOperation, "no such operation"),
    (3, Number::NoSuchForm, "no such form"),
    (4, Number::Immediate, "immediate"),
    (5, Number::Source, "source"),
    (6, Number::NoRoom, "no room"),
    (7, Number::Register, "register"),
    (8, Number::LongBlock, "long block"),
    (9, Number::ShortBuffer, "short buffer"),
    (10, Number::Line, "line"),
    (11, Number::Visits, "visits"),
    (12, Number::Word, "word"),
    (13, Number::Bits, "bits"),
    (14, Number::Refutation, "refutation"),
];

impl Number {
    fn of(code: u64) -> Self {
        let known = NUMBERS.into_iter().find(|row| row.0 == code);
        known.map_or(Self::Unknown(code), |row| row.1)
    }

    /// The number in the table.
    pub fn code(self) -> u64 {
        match self {
            Self::Unknown(code) => code,
            known => NUMBERS.into_iter().find(|row| row.1 == known).expect("a row for each number").0,
        }
    }
}

impl fmt::Display for Number {
    fn fmt(&self, f: &mut fmt::Formatter<'_>) -> fmt::Result {
        match NUMBERS.into_iter().find(|row| row.1 == *self) {
            Some((_, _, word)) => f.write_str(word),
            None => write!(f, "unknown number {}", self.code()),
        }
    }
}

/// A number and, if it is of a record of a block, of a word, of a line or of a step of a refutation, the position of the first bad one.
#[derive(Debug, Clone, Copy, PartialEq, Eq)]
pub struct Refusal {
    pub number: Number,
    pub position: Option<usize>,
}

impl fmt::Display for Refusal {
    fn fmt(&self, f: &mut fmt::Formatter<'_>) -> fmt::Result {
        match self.position {
            Some(position) if self.number == Number::Word => write!(f, "word {position} encodes no legal form"),
            Some(position) if self.number == Number::Line => write!(f, "line {position} is not in columns"),
            Some(position) if self.number == Number::Refutation => write!(f, "step {position} of the refutation is refused"),
            Some(position) => write!(f, "{} (record {position})", self.number),
            None => self.number.fmt(f),
        }
    }
}

impl std::error::Error for Refusal {}

/// The answer of an operation that is not on a block: 0 alone is Ok.
fn answer(code: u64) -> Result<(), Refusal> {
    match code {
        0 => Ok(()),
        _ => Err(Refusal { number: Number::of(code), position: None }),
    }
}

/// The answer of a list: 2, 3, 4 and 7 are of the record at a position, 10 of the line, 12 of the word, 14 of the step.
fn list_answer(code: u64, position: usize) -> Result<(), Refusal> {
    let of_one = matches!(code, 2 | 3 | 4 | 7 | 10 | 12 | 14);
    answer(code).map_err(|refusal| Refusal { position: of_one.then_some(position), ..refusal })
}

/// What a legal form reads.
#[derive(Debug, Clone, Copy, PartialEq, Eq)]
pub struct Form {
    pub immediate: Immediate,
    pub second_source: bool,
    pub reads_destination: bool,
    /// 64 or 128.
    pub first_bits: u16,
    /// 64 or 128; those of the first without a second source.
    pub second_bits: u16,
}

/// What i may be.
#[derive(Debug, Clone, Copy, PartialEq, Eq)]
pub enum Immediate {
    /// 0 alone.
    None,
    /// 0 to n - 1.
    Left,
    /// 1 to n.
    Right,
    /// The number of an element: 0 to 7 for 4S, 0 to 3 for 2D.
    Element,
}

/// The form of an operation at an arrangement, if there is one.
///
/// ```
/// use neon_terms::{Arrangement, Immediate, Operation, form};
/// assert_eq!(form(Operation::SHL.number(), Arrangement::B8.number()).unwrap().immediate, Immediate::Left);
/// assert!(form(Operation::SHADD.number(), Arrangement::D2.number()).is_none());
/// ```
pub fn form(operation: u64, arrangement: u64) -> Option<Form> {
    let code = raw::form_code(operation, arrangement);
    let bits = |flag: u64| if code & flag == 0 { 64 } else { 128 };
    let immediate = match code & 7 {
        1 => Immediate::None,
        2 => Immediate::Left,
        3 => Immediate::Right,
        4 => Immediate::Element,
        _ => return None,
    };
    Some(Form {
        immediate,
        second_source: code & 8 != 0,
        reads_destination: code & 16 != 0,
        first_bits: bits(32),
        second_bits: bits(64),
    })
}

/// Terms by number: each node's operands come before it.
#[derive(Debug, Clone)]
pub struct Pool {
    words: Vec<u64>,
    count: usize,
}

/// Free places do not count.
impl PartialEq for Pool {
    fn eq(&self, other: &Self) -> bool {
        self.words() == other.words()
    }
}

impl Eq for Pool {}

impl Pool {
    /// v0 to v31 as nodes 0 to 31, and no other.
    pub fn registers() -> Self {
        Self::from_block(&[]).expect("an empty block is accepted").0
    }

    /// A pool from words, if it passes the pool check.
    ///
    /// ```
    /// use neon_terms::Pool;
    /// // v5, of which bit 5 of the set is up
    /// assert!(Pool::from_words(vec![1 + (128 << 16) + (1 << (32 + 5)), 0, 5, 0], 1).is_some());
    /// // without it, as an earlier version had it
    /// assert!(Pool::from_words(vec![1 + (128 << 16), 0, 5, 0], 1).is_none());
    /// // no register 32
    /// assert!(Pool::from_words(vec![1 + (128 << 16), 0, 32, 0], 1).is_none());
    /// ```
    pub fn from_words(words: Vec<u64>, count: usize) -> Option<Self> {
        raw::pool_check(&words, count).then_some(Self { words, count })
    }

    /// A new pool with the terms of the 32 registers after the records.
    ///
    /// ```
    /// use neon_terms::{Arrangement, Number, Operation, Pool, Record};
    /// let good = Record::new(Operation::SHL, Arrangement::B8).immediate(7).d(0).n(1);
    /// let refusal = Pool::from_block(&[good, good.immediate(8)]).unwrap_err();
    /// assert_eq!((refusal.number, refusal.position), (Number::Immediate, Some(1)));
    /// assert_eq!(refusal.to_string(), "immediate (record 1)");
    /// ```
    pub fn from_block(records: &[Record]) -> Result<(Self, [Node; 32]), Refusal> {
        let flat: Vec<u64> = records.iter().flat_map(Record::numbers).collect();
        let mut words = vec![0; 4 * (32 + raw::RESERVE * records.len().min(raw::MOST_RECORDS))];
        let mut results = [0; raw::RESULTS];
        let number = raw::lower_block(&mut words, &flat, &mut results);
        list_answer(number, results[33] as usize)?;
        let count = results[32] as usize;
        words.truncate(4 * count);
        Ok((Self { words, count }, std::array::from_fn(|r| Node(results[r] as usize))))
    }

    /// The number of nodes.
    pub fn len(&self) -> usize {
        self.count
    }

    pub fn is_empty(&self) -> bool {
        self.count == 0
    }

    /// The words of the nodes, four each.
    pub fn words(&self) -> &[u64] {
        &self.words[..4 * self.count]
    }

    /// Adds the term of one instruction on the nodes d (the old destination), n and m (the sources); None for one that the
    /// form does not read. The pool grows if node numbers are left.
    ///
    /// ```
    /// use neon_terms::{Arrangement, Node, Operation, Pool};
    /// let mut pool = Pool::registers();
    /// // sqabs v0.16b, v3.16b, and the same of that
    /// let (operation, arrangement) = (Operation::SQABS.number(), Arrangement::B16.number());
    /// let once = pool.lower(operation, arrangement, 0, None, Some(Node(3)), None)?;
    /// let twice = pool.lower(operation, arrangement, 0, None, Some(once), None)?;
    /// assert_eq!(pool.view(twice).unwrap().width, 128);
    /// // an instruction is no record of a block
    /// let refusal = pool.lower(operation, arrangement, 1, None, Some(once), None).unwrap_err();
    /// assert_eq!(refusal.to_string(), "immediate");
    /// # Ok::<(), neon_terms::Refusal>(())
    /// ```
    pub fn lower(&mut self, operation: u64, arrangement: u64, i: u64, d: Option<Node>, n: Option<Node>, m: Option<Node>) -> Result<Node, Refusal> {
        let wanted = (self.count + raw::RESERVE).min(raw::NO_NODE);
        if self.words.len() < 4 * wanted {
            self.words.resize(4 * wanted, 0);
        }
        let nodes = [d, n, m].map(|node| node.map_or(raw::NO_NODE, |node| node.0));
        let (number, node, after) = raw::lower_instruction(&mut self.words, self.count, [operation, arrangement, i], nodes);
        answer(number)?;
        self.count = after;
        Ok(Node(node))
    }

    /// The registers that a node's term reads. Two starts that agree on them give the term the same value.
    ///
    /// ```
    /// use neon_terms::{Arrangement, Node, Number, Operation, Pool, Record};
    /// let (pool, registers) = Pool::from_block(&[Record::new(Operation::USHL, Arrangement::D2).d(0).n(1).m(2)])?;
    /// let read = pool.registers_of(registers[0])?;
    /// assert!(read.contains(2) && !read.contains(7));
    /// assert_eq!(read.collect::<Vec<_>>(), [1, 2]);
    /// assert_eq!(pool.registers_of(Node(pool.len())).unwrap_err().number, Number::Source);
    /// # Ok::<(), neon_terms::Refusal>(())
    /// ```
    pub fn registers_of(&self, node: Node) -> Result<RegisterSet, Refusal> {
        let (number, set) = raw::registers_of(&self.words, self.count, node.0);
        answer(number)?;
        Ok(RegisterSet { set })
    }

    /// The text of a node.
    ///
    /// Shared nodes are repeated, so a text may be far longer than the pool: more than 2^24 bytes is [`Number::ShortBuffer`].
    pub fn text(&self, node: Node) -> Result<String, Refusal> {
        // to ask the length first would take more stack, and so a thread
        let mut bytes = SHORT_TEXT;
        loop {
            let mut buffer = vec![0; bytes];
            match self.write_text(node, &mut buffer) {
                Ok(length) => {
                    buffer.truncate(length);
                    return Ok(String::from_utf8(buffer).expect("the text is ASCII"));
                }
                Err(refusal) if refusal.number == Number::ShortBuffer && bytes < LONGEST_TEXT => bytes *= 16,
                Err(refusal) => return Err(refusal),
            }
        }
    }

    /// The length of the text of a node, or None if it is above the ceiling.
    ///
    /// ```
    /// use neon_terms::{Node, Number, Pool};
    /// let pool = Pool::registers();
    /// assert_eq!((pool.text_length(Node(31), 3)?, pool.text_length(Node(31), 2)?), (Some(3), None));
    /// assert_eq!(pool.text_length(Node(32), 3).unwrap_err().number, Number::Source);
    /// # Ok::<(), neon_terms::Refusal>(())
    /// ```
    pub fn text_length(&self, node: Node, ceiling: u32) -> Result<Option<u32>, Refusal> {
        let (number, length) = raw::text_length(&self.words, self.count, node.0, ceiling);
        answer(number)?;
        Ok(u32::try_from(length).ok().filter(|length| *length <= ceiling))
    }

    /// Writes the text of a node to the front of a buffer, and returns its length.
    pub fn write_text(&self, node: Node, buffer: &mut [u8]) -> Result<usize, Refusal> {
        let (number, length) = raw::write_text(&self.words, self.count, node.0, buffer);
        answer(number)?;
        Ok(length)
    }
}

#[cfg(test)]
mod tests {
    use super::*;

    #[test]
    fn only_0_is_done() {
        assert_eq!(answer(0), Ok(()));
        for code in (1..20).chain([u64::MAX]) {
            let refusal = answer(code).unwrap_err();
            assert_eq!((refusal.number.code(), refusal.position), (code, None));
        }
        assert_eq!(answer(99).unwrap_err().to_string(), "unknown number 99");
    }

    #[test]
    fn numbers_of_records_have_a_position() {
        for code in 1..20 {
            let position = matches!(code, 2 | 3 | 4 | 7 | 10 | 12 | 14).then_some(5);
            assert_eq!(list_answer(code, 5).unwrap_err().position, position);
        }
        assert_eq!(list_answer(7, 0).unwrap_err().to_string(), "register (record 0)");
        assert_eq!(list_answer(8, 0).unwrap_err().to_string(), "long block");
    }

    #[test]
    fn each_number_once() {
        for (k, (code, number, word)) in NUMBERS.into_iter().enumerate() {
            assert_eq!((Number::of(code), number.code(), number.to_string().as_str()), (number, code, word));
            assert!(NUMBERS[..k].iter().all(|row| row.0 < code && row.1 != number));
        }
    }

    #[test]
    fn operations_and_arrangements_by_number() {
        for (k, operation) in Operation::ALL.into_iter().enumerate() {
            assert_eq!((operation.number(), Operation::of(k as u64 + 1)), (k as u64 + 1, Some(operation)));
            assert!((0..7).any(|arrangement| form(operation.number(), arrangement).is_some()));
            // the I of SQSHLI and UQSHLI and the E of an element are not the assembler's
            let name = format!("{operation:?}").to_lowercase();
            let ours = usize::from(matches!(operation.number(), 2 | 3 | 48..=53));
            assert_eq!(operation.mnemonic(), &name[..name.len() - ours]);
        }
        for (k, arrangement) in Arrangement::ALL.into_iter().enumerate() {
            assert_eq!((arrangement.number(), Arrangement::of(k as u64)), (k as u64, Some(arrangement)));
        }
        assert!((0..7).all(|arrangement| form(0, arrangement).is_none() && form(68, arrangement).is_none()));
        assert_eq!(Arrangement::of(7), None);
    }
}
