//! A pool as an SMT-LIB script, in two forms.

use crate::{Node, Pool, Refusal, answer, raw};

impl Pool {
    /// The QF_BV script that asks a solver whether the nodes a and b, of 128 bits, can differ: `unsat` is the answer where they are equal at
    /// every start. The registers at the start are r0 to r31, a node that is no Var is n with its number.
    ///
    /// ```
    /// use neon_terms::{Arrangement, Node, Number, Operation, Pool, Record};
    /// let record = Record::new(Operation::USHR, Arrangement::D2).immediate(1).n(1);
    /// let (pool, registers) = Pool::from_block(&[record.d(0), record.d(2)])?;
    /// let script = pool.script(registers[0], registers[2])?;
    /// assert!(script.starts_with("(set-logic QF_BV)\n(declare-const r0 (_ BitVec 128))\n"));
    /// assert!(script.contains("(define-fun n32 () (_ BitVec 64) ((_ extract 63 0) r1))\n"));
    /// let (a, b) = (registers[0].0, registers[2].0);
    /// assert!(script.ends_with(&format!("(assert (distinct n{a} n{b}))\n(check-sat)\n")));
    /// // a node of 64 bits is not one that a script can be about
    /// assert_eq!(pool.script(registers[0], Node(32)).unwrap_err().number, Number::Source);
    /// # Ok::<(), neon_terms::Refusal>(())
    /// ```
    pub fn script(&self, a: Node, b: Node) -> Result<String, Refusal> {
        let mut buffer = vec![0; self.script_length(a, b)?];
        self.write_script(a, b, &mut buffer)?;
        Ok(String::from_utf8(buffer).expect("the script is ASCII"))
    }

    /// The length of the script.
    pub fn script_length(&self, a: Node, b: Node) -> Result<usize, Refusal> {
        let (number, length) = raw::script_length(&self.words, self.count, [a.0, b.0]);
        answer(number)?;
        Ok(length)
    }

    /// Writes the script to the front of a buffer, and returns its length.
    pub fn write_script(&self, a: Node, b: Node, buffer: &mut [u8]) -> Result<usize, Refusal> {
        let (number, length) = raw::write_script(&self.words, self.count, [a.0, b.0], buffer);
        answer(number)?;
        Ok(length)
    }

    /// The QF_BV script that asks a solver whether the nodes a and b, of 128 bits, can differ in the bits from hi down to lo: a constant and an
    /// equation a node, so that solvers keep what terms share. The nodes are equal at every start where no lane's script can be met.
    ///
    /// ```
    /// use neon_terms::{Arrangement, Number, Operation, Pool, Record};
    /// // the second with the sources exchanged
    /// let record = Record::new(Operation::SQADD, Arrangement::B16);
    /// let (pool, registers) = Pool::from_block(&[record.d(0).n(1).m(2), record.d(3).n(2).m(1)])?;
    /// let (a, b) = (registers[0], registers[3]);
    /// for lane in 0..16 {
    ///     let (hi, lo) = (8 * lane + 7, 8 * lane);
    ///     let script = pool.lane_script(a, b, hi, lo)?;
    ///     assert!(script.contains("(declare-const n32 (_ BitVec 8))\n(assert (= n32 ((_ extract 7 0) r1)))\n"));
    ///     let cut = format!("(_ extract {hi} {lo})");
    ///     assert!(script.ends_with(&format!("(assert (distinct ({cut} n{}) ({cut} n{})))\n(check-sat)\n", a.0, b.0)));
    /// }
    /// // no cut of 128 bits
    /// assert_eq!(pool.lane_script(a, b, 128, 121).unwrap_err().number, Number::Source);
    /// # Ok::<(), neon_terms::Refusal>(())
    /// ```
    pub fn lane_script(&self, a: Node, b: Node, hi: u64, lo: u64) -> Result<String, Refusal> {
        let mut buffer = vec![0; self.lane_script_length(a, b, hi, lo)?];
        self.write_lane_script(a, b, hi, lo, &mut buffer)?;
        Ok(String::from_utf8(buffer).expect("the script is ASCII"))
    }

    /// The length of the script.
    pub fn lane_script_length(&self, a: Node, b: Node, hi: u64, lo: u64) -> Result<usize, Refusal> {
        let (number, length) = raw::lane_script_length(&self.words, self.count, [a.0, b.0], [hi, lo]);
        answer(number)?;
        Ok(length)
    }

    /// Writes the script to the front of a buffer, and returns its length.
    pub fn write_lane_script(&self, a: Node, b: Node, hi: u64, lo: u64, buffer: &mut [u8]) -> Result<usize, Refusal> {
        let (number, length) = raw::write_lane_script(&self.words, self.count, [a.0, b.0], [hi, lo], buffer);
        answer(number)?;
        Ok(length)
    }
}
