//! Joins two pools.
use crate::{Node, Pool, Refusal, answer, raw};

impl Pool {
    /// Both pools in one: the registers once, then the other nodes of `a`, then those of `b`, renumbered, and last the Eq of the terms
    /// `ra` of `a` and `rb` of `b`, of 128 bits each, which is returned. Its value at a start is 1 exactly if the two terms have equal values.
    ///
    /// Both must begin with v0 to v31 and have no further Var, as pools of [`Pool::from_block`] do; else `Number::BadPool`.
    ///
    /// ```
    /// use neon_terms::{Arrangement, Kind, Node, Number, Operation, Pool, Record};
    /// let shift = |i| Pool::from_block(&[Record::new(Operation::USHR, Arrangement::D2).immediate(i).d(0).n(1)]);
    /// let (old, before) = shift(1)?;
    /// let (new, after) = shift(2)?;
    /// let (both, eq) = Pool::join(&old, before[0], &new, after[0])?;
    /// assert_eq!(both.len(), old.len() + new.len() - 31);
    /// assert_eq!(both.text(eq)?, format!("({} == {})", old.text(before[0])?, new.text(after[0])?));
    /// // a node that does not exist
    /// assert_eq!(Pool::join(&old, Node(old.len()), &new, after[0]).unwrap_err().number, Number::Source);
    /// # Ok::<(), neon_terms::Refusal>(())
    /// ```
    pub fn join(a: &Pool, ra: Node, b: &Pool, rb: Node) -> Result<(Pool, Node), Refusal> {
        let places = (a.len() + b.len()).saturating_sub(31).min(raw::NO_NODE);
        let mut words = vec![0; 4 * places];
        let (number, node, count) = raw::join((a.words(), a.len(), ra.0), (b.words(), b.len(), rb.0), &mut words);
        answer(number)?;
        Ok((Pool { words, count }, Node(node)))
    }
}
