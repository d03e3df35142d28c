//! Equal bits of two terms, shown by a refutation of the literal that is true where they differ.
use crate::{Node, Pool, Refusal, answer, list_answer, raw};

/// Working memory, kept from call to call. It grows to what two pools need.
///
/// ```
/// use neon_terms::{Arrangement, Number, Operation, Pool, Record, Workspace};
/// // the second with the sources exchanged
/// let record = Record::new(Operation::SQADD, Arrangement::B16).d(0);
/// let (one, v) = Pool::from_block(&[record.n(1).m(2)])?;
/// let (other, w) = Pool::from_block(&[record.n(2).m(1)])?;
/// let mut work = Workspace::default();
/// // both build the same gates: there is nothing left to refute
/// assert_eq!(work.question((&one, v[0]), (&other, w[0]), 127, 0)?.literal, 0);
/// work.equal((&one, v[0]), (&other, w[0]), 127, 0, &[])?;
/// // v1 and v2 differ at some starts
/// assert_ne!(work.question((&one, v[1]), (&one, v[2]), 7, 0)?.literal, 0);
/// let refusal = work.equal((&one, v[1]), (&one, v[2]), 7, 0, &[]).unwrap_err();
/// assert_eq!((refusal.number, refusal.position), (Number::Refutation, Some(1)));
/// assert_eq!(refusal.to_string(), "step 1 of the refutation is refused");
/// # Ok::<(), neon_terms::Refusal>(())
/// ```
#[derive(Debug, Clone, Default)]
pub struct Workspace {
    graph: Vec<u64>,
    bits: Vec<u64>,
    table: Vec<u64>,
    marks: Vec<u64>,
    starts: Vec<u64>,
}

/// A graph and the literal that is true at exactly those starts at which the bits differ.
///
/// A literal is twice a variable, plus 1 if it is inverted. Variable 0 is false, 1 + 128 r + j is bit j of register r at the start, and 4,097 + k is
/// gate k, the conjunction of [`Question::operands`].
#[derive(Debug, Clone, Copy, PartialEq, Eq)]
pub struct Question<'a> {
    /// Gate k is left literal + 2^32 x right literal.
    pub gates: &'a [u64],
    /// 0, false, if the construction alone shows the bits equal.
    pub literal: u32,
}

impl Question<'_> {
    /// The variables before the first gate: the constant and 128 bits of 32 registers.
    pub const INPUTS: usize = 4097;

    /// The left and the right literal of a gate.
    pub fn operands(&self, gate: usize) -> [u32; 2] {
        [self.gates[gate] as u32, (self.gates[gate] >> 32) as u32]
    }
}

fn chosen<'a>((pool, node): (&'a Pool, Node)) -> raw::Chosen<'a> {
    (pool.words(), pool.len(), node.0)
}

/// At least so many entries. New memory is taken instead of a larger copy of the old: what it holds does not matter, and what is not used is
/// never touched.
fn lend(memory: &mut Vec<u64>, entries: usize) {
    if memory.len() < entries {
        *memory = vec![0; entries];
    }
}

impl Workspace {
    /// Bytes that [`Workspace::equal`] takes for two pools at most, without what the length of a refutation adds.
    ///
    /// ```
    /// use neon_terms::{Pool, Workspace};
    /// let pool = Pool::registers();
    /// assert!(Workspace::bytes(&pool, &pool)? > 0);
    /// # Ok::<(), neon_terms::Refusal>(())
    /// ```
    pub fn bytes(first: &Pool, second: &Pool) -> Result<u64, Refusal> {
        let (number, gates, places) = raw::question_room(chosen((first, Node(0))), chosen((second, Node(0))));
        answer(number)?;
        // the graph and a table of its length, marks of twice its variables
        Ok(8 * (2 * gates + places + 2 * (Question::INPUTS + gates)) as u64)
    }

    /// Memory for the graph of two pools. The table is of zeros and of one length for the same pools, so that they give the same graph.
    fn room(&mut self, first: raw::Chosen, second: raw::Chosen) -> Result<usize, Refusal> {
        let (number, gates, places) = raw::question_room(first, second);
        answer(number)?;
        lend(&mut self.graph, gates);
        lend(&mut self.bits, places);
        self.table.clear();
        self.table.resize(gates, 0);
        Ok(gates)
    }

    /// The question whether bits hi to lo of a term of the first pool and of one of the second, of 128 bits each, can differ.
    pub fn question(&mut self, first: (&Pool, Node), second: (&Pool, Node), hi: usize, lo: usize) -> Result<Question<'_>, Refusal> {
        let (first, second) = (chosen(first), chosen(second));
        self.room(first, second)?;
        let (number, count, literal) = raw::question(first, second, [hi, lo], [&mut self.graph, &mut self.bits, &mut self.table]);
        answer(number)?;
        Ok(Question { gates: &self.graph[..count], literal: literal as u32 })
    }

    /// Ok if the refutation is accepted: bits hi to lo of the two terms are equal at every start. The graph is that of [`Workspace::question`], and
    /// an empty refutation is accepted if its literal is 0. Else the position of the refusal is the number of the first refused step.
    ///
    /// A refutation is step after step, numbered from 1: the number of literals of a clause, the literals, the number of hints, the hints. Step 0 is
    /// the assumption that the literal is true. Hint v cites clause v % 4 of gate v / 4 (0: not gate, or left; 1: not gate, or right; 2: gate, or
    /// not left, or not right), or the clause of step v / 4 if v % 4 is 3. Each clause follows from the cited ones by unit propagation, in the
    /// order of the hints; the last is empty.
    ///
    /// ```
    /// use neon_terms::{Arrangement, Operation, Pool, Record, Workspace};
    /// let (pool, v) = Pool::from_block(&[Record::new(Operation::USHR, Arrangement::D2).immediate(1).d(0).n(1)])?;
    /// let mut work = Workspace::default();
    /// assert_eq!(work.question((&pool, v[0]), (&pool, v[0]), 127, 0)?.literal, 0);
    /// // no literals, and one hint that cites step 0: the assumption that false is true is a conflict
    /// work.equal((&pool, v[0]), (&pool, v[0]), 127, 0, &[0, 1, 3])?;
    /// # Ok::<(), neon_terms::Refusal>(())
    /// ```
    pub fn equal(&mut self, first: (&Pool, Node), second: (&Pool, Node), hi: usize, lo: usize, refutation: &[u32]) -> Result<(), Refusal> {
        let (first, second) = (chosen(first), chosen(second));
        let gates = self.room(first, second)?;
        lend(&mut self.marks, 2 * (Question::INPUTS + gates));
        lend(&mut self.starts, refutation.len() / 2 + 1);
        let lent = [&mut self.graph, &mut self.bits, &mut self.table, &mut self.marks, &mut self.starts].map(Vec::as_mut_slice);
        let (number, step) = raw::equal(first, second, [hi, lo], refutation, lent);
        list_answer(number, step)
    }
}
