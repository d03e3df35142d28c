//! One order for nodes: canonical pools, and terms that are compared by them.
use crate::{Node, Pool, Refusal, answer, raw};

impl Pool {
    /// The canonical pool of a root: each distinct subtree once, in the order in which a left-first walk finishes them. The root, its last node,
    /// is returned. Two roots have equal canonical pools exactly if they unfold to the same tree.
    ///
    /// ```
    /// use neon_terms::{Arrangement, Operation, Pool, Record};
    /// let shift = |d, n| Record::new(Operation::USHR, Arrangement::D2).immediate(1).d(d).n(n);
    /// let (one, v) = Pool::from_block(&[shift(1, 4), shift(2, 5)])?;
    /// let (other, w) = Pool::from_block(&[shift(2, 5), shift(1, 4)])?;
    /// assert!(one != other);
    /// let (canonical, root) = one.canonical(v[1])?;
    /// assert_eq!(canonical, other.canonical(w[1])?.0);
    /// assert_eq!(canonical.text(root)?, one.text(v[1])?);
    /// // a second time nothing changes
    /// assert_eq!(canonical.canonical(root)?.0, canonical);
    /// # Ok::<(), neon_terms::Refusal>(())
    /// ```
    pub fn canonical(&self, root: Node) -> Result<(Pool, Node), Refusal> {
        let mut words = vec![0; 4 * self.len().min(root.0.saturating_add(1))];
        let (number, count) = raw::canonical(self.words(), self.len(), root.0, &mut words);
        answer(number)?;
        words.truncate(4 * count);
        Ok((Pool { words, count }, Node(count - 1)))
    }

    /// The term of a node, if it exists.
    pub fn term(&self, node: Node) -> Option<Term<'_>> {
        (node.0 < self.len()).then_some(Term { pool: self, node })
    }
}

/// A term of a pool. Two terms are equal if they are the same tree, in any pools and under any numbers.
///
/// ```
/// use neon_terms::{Arrangement, Node, Operation, Pool, Record};
/// let shift = |d, n| Record::new(Operation::USHR, Arrangement::D2).immediate(1).d(d).n(n);
/// let (one, v) = Pool::from_block(&[shift(1, 4), shift(2, 5)])?;
/// let (other, w) = Pool::from_block(&[shift(2, 5), shift(1, 4)])?;
/// assert_eq!(one.term(v[1]), other.term(w[1]));
/// assert_ne!(one.term(v[1]), one.term(v[2]));
/// assert_eq!(one.term(Node(one.len())), None);
/// # Ok::<(), neon_terms::Refusal>(())
/// ```
#[derive(Debug, Clone, Copy)]
pub struct Term<'a> {
    pool: &'a Pool,
    node: Node,
}

impl PartialEq for Term<'_> {
    fn eq(&self, other: &Self) -> bool {
        let words = |term: &Self| term.pool.canonical(term.node).expect("a pool of this crate passes the check").0;
        words(self) == words(other)
    }
}

impl Eq for Term<'_> {}
