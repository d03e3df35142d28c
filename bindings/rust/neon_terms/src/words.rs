//! The nodes of a pool, taken apart.
use crate::{Pool, Refusal};

/// The number of a node.
#[derive(Debug, Clone, Copy, PartialEq, Eq, PartialOrd, Ord, Hash)]
pub struct Node(pub usize);

impl Node {
    /// The registers beneath the node, as [`Pool::registers_of`] gives them.
    ///
    /// ```
    /// use neon_terms::{Node, Pool};
    /// assert_eq!(Node(5).registers(&Pool::registers())?.collect::<Vec<_>>(), [5]);
    /// # Ok::<(), neon_terms::Refusal>(())
    /// ```
    pub fn registers(self, pool: &Pool) -> Result<RegisterSet, Refusal> {
        pool.registers_of(self)
    }
}

/// A set of registers, which gives their numbers from the lowest on.
#[derive(Debug, Clone, Copy, PartialEq, Eq, Hash)]
pub struct RegisterSet {
    pub(crate) set: u64,
}

impl RegisterSet {
    /// Bit r for register r.
    pub fn set(self) -> u32 {
        self.set as u32
    }

    pub fn contains(self, register: u8) -> bool {
        register < 32 && self.set >> register & 1 == 1
    }
}

impl Iterator for RegisterSet {
    type Item = u8;

    fn next(&mut self) -> Option<u8> {
        if self.set == 0 {
            return None;
        }
        let register = self.set.trailing_zeros();
        self.set &= self.set - 1;
        Some(register as u8)
    }

    fn size_hint(&self) -> (usize, Option<usize>) {
        let left = self.set.count_ones() as usize;
        (left, Some(left))
    }
}

impl ExactSizeIterator for RegisterSet {}

/// What a node is, over its operands.
#[derive(Debug, Clone, Copy, PartialEq, Eq)]
pub enum Kind {
    Var(u8),
    Const(u128),
    Add(Node, Node),
    Sub(Node, Node),
    Mul(Node, Node),
    And(Node, Node),
    Or(Node, Node),
    Xor(Node, Node),
    Shl(Node, Node),
    LShr(Node, Node),
    AShr(Node, Node),
    Eq(Node, Node),
    Ult(Node, Node),
    Slt(Node, Node),
    /// Condition, then, else.
    Ite(Node, Node, Node),
    Extract { of: Node, hi: u16, lo: u16 },
    /// High part, low part.
    Concat(Node, Node),
    ZeroExtend(Node),
    SignExtend(Node),
}

/// A node with its width: 1 to 129 bits, or 0 for a condition.
#[derive(Debug, Clone, Copy, PartialEq, Eq)]
pub struct View {
    pub node: Node,
    pub width: u16,
    pub kind: Kind,
}

impl Pool {
    /// The fields of a node, if it exists.
    ///
    /// ```
    /// use neon_terms::{Kind, Node, Pool};
    /// let pool = Pool::registers();
    /// assert_eq!(pool.view(Node(5)).unwrap().kind, Kind::Var(5));
    /// assert!(pool.view(Node(32)).is_none() && pool.view(Node(1 << 62)).is_none());
    /// ```
    pub fn view(&self, node: Node) -> Option<View> {
        let at = self.words().chunks_exact(4).nth(node.0)?;
        let (a, b, c) = (operand(at[1]), operand(at[1] >> 16), operand(at[1] >> 32));
        let kind = match at[0] & 0xffff {
            1 => Kind::Var(at[2] as u8),
            2 => Kind::Const(u128::from(at[3]) << 64 | u128::from(at[2])),
            3 => Kind::Add(a, b),
            4 => Kind::Sub(a, b),
            5 => Kind::Mul(a, b),
            6 => Kind::And(a, b),
            7 => Kind::Or(a, b),
            8 => Kind::Xor(a, b),
            9 => Kind::Shl(a, b),
            10 => Kind::LShr(a, b),
            11 => Kind::AShr(a, b),
            12 => Kind::Eq(a, b),
            13 => Kind::Ult(a, b),
            14 => Kind::Slt(a, b),
            15 => Kind::Ite(a, b, c),
            16 => Kind::Extract { of: a, hi: at[2] as u16, lo: at[3] as u16 },
            17 => Kind::Concat(a, b),
            18 => Kind::ZeroExtend(a),
            _ => Kind::SignExtend(a),
        };
        Some(View { node, width: (at[0] >> 16) as u16, kind })
    }

    /// All nodes in the order of their numbers.
    ///
    /// ```
    /// use neon_terms::{Arrangement, Kind, Operation, Pool, Record};
    /// let (pool, _) = Pool::from_block(&[Record::new(Operation::CNT, Arrangement::B8).d(0).n(1)])?;
    /// let sums = pool.nodes().filter(|view| matches!(view.kind, Kind::Add(..))).count();
    /// assert!(sums > 0 && pool.nodes().len() == pool.len());
    /// # Ok::<(), neon_terms::Refusal>(())
    /// ```
    pub fn nodes(&self) -> Nodes<'_> {
        Nodes { pool: self, next: 0 }
    }
}

fn operand(word: u64) -> Node {
    Node((word & 0xffff) as usize)
}

/// See [`Pool::nodes`].
#[derive(Debug, Clone)]
pub struct Nodes<'a> {
    pool: &'a Pool,
    next: usize,
}

impl Iterator for Nodes<'_> {
    type Item = View;

    fn next(&mut self) -> Option<View> {
        let view = self.pool.view(Node(self.next))?;
        self.next += 1;
        Some(view)
    }

    fn size_hint(&self) -> (usize, Option<usize>) {
        let left = self.pool.len() - self.next;
        (left, Some(left))
    }
}

impl ExactSizeIterator for Nodes<'_> {}

impl<'a> IntoIterator for &'a Pool {
    type Item = View;
    type IntoIter = Nodes<'a>;

    fn into_iter(self) -> Nodes<'a> {
        self.nodes()
    }
}
