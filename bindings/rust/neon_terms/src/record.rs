//! An instruction of a block.
use crate::{Arrangement, Operation};

/// An instruction of a block: d, n and m are registers, m is 0 without a second source. Numbers that name nothing are refused.
///
/// It displays as assembly: see [`Record::assembly`].
#[derive(Debug, Clone, Copy, PartialEq, Eq, Hash)]
pub struct Record {
    pub operation: u64,
    pub arrangement: u64,
    pub i: u64,
    pub d: u64,
    pub n: u64,
    pub m: u64,
}

impl Record {
    /// The operation at the arrangement, with the immediate 0 and the registers v0; the functions below name others.
    ///
    /// ```
    /// use neon_terms::{Arrangement, Operation, Record};
    /// let record = Record::new(Operation::USHR, Arrangement::D2).immediate(3).d(4).n(1);
    /// assert_eq!(record, Record { operation: 6, arrangement: 6, i: 3, d: 4, n: 1, m: 0 });
    /// assert_eq!(Record::new(Operation::SQADD, Arrangement::H8).d(4).n(1).m(2).to_string(), "sqadd v4.8h, v1.8h, v2.8h");
    /// ```
    pub fn new(operation: Operation, arrangement: Arrangement) -> Self {
        Self { operation: operation.number(), arrangement: arrangement.number(), i: 0, d: 0, n: 0, m: 0 }
    }

    /// The amount of a shift, or the number of an element.
    #[must_use]
    pub fn immediate(self, i: u64) -> Self {
        Self { i, ..self }
    }

    /// The destination.
    #[must_use]
    pub fn d(self, d: u64) -> Self {
        Self { d, ..self }
    }

    /// The first source.
    #[must_use]
    pub fn n(self, n: u64) -> Self {
        Self { n, ..self }
    }

    /// The second source.
    #[must_use]
    pub fn m(self, m: u64) -> Self {
        Self { m, ..self }
    }

    pub(crate) fn numbers(&self) -> [u64; 6] {
        [self.operation, self.arrangement, self.i, self.d, self.n, self.m]
    }
}
