//! The calls of the archive that tests/tools/build_library writes, by the crate neon_terms-sys. A lent slice stands between guards.

use neon_terms_sys as sys;

const GUARDS: usize = 8;

/// A slice with guards before and after it.
pub struct Lent<T> {
    all: Vec<T>,
    guard: T,
}

impl<T: Copy + PartialEq> Lent<T> {
    pub fn new(items: &[T], guard: T) -> Self {
        let mut lent = Self { all: vec![guard; GUARDS], guard };
        lent.set(items);
        lent
    }

    pub fn set(&mut self, items: &[T]) {
        self.all.truncate(GUARDS);
        self.all.extend_from_slice(items);
        self.all.resize(items.len() + 2 * GUARDS, self.guard);
    }

    /// So many items, whatever they are.
    pub fn fit(&mut self, size: usize) {
        self.all.resize(size + 2 * GUARDS, self.guard);
        self.all[GUARDS + size..].fill(self.guard);
    }

    pub fn items(&self) -> &[T] {
        &self.all[GUARDS..self.all.len() - GUARDS]
    }

    pub fn items_mut(&mut self) -> &mut [T] {
        let end = self.all.len() - GUARDS;
        &mut self.all[GUARDS..end]
    }

    fn lend(&mut self) -> (*mut T, usize) {
        let bytes = self.all.len() - 2 * GUARDS;
        (self.all[GUARDS..].as_mut_ptr(), bytes)
    }

    /// Panics where a guard has changed.
    fn look(&self) {
        let end = self.all.len() - GUARDS;
        let whole = self.all[..GUARDS].iter().chain(&self.all[end..]).all(|x| *x == self.guard);
        assert!(whole, "a word or byte outside a lent slice changed");
    }
}

pub type Words = Lent<u64>;

pub fn words(items: &[u64]) -> Words {
    Lent::new(items, 0x5aa5_0ff0_5aa5_f00f)
}

pub fn bytes(size: usize) -> Lent<u8> {
    Lent::new(&vec![OLD; size], 0x3c)
}

/// What a text buffer holds before a call.
pub const OLD: u8 = 0xa5;

pub fn form_code(operation: u64, arrangement: u64) -> u64 {
    sys::neon_form_code(operation, arrangement)
}

pub fn pool_check(pool: &[u64], count: usize) -> bool {
    unsafe { sys::neon_pool_check(pool.as_ptr(), pool.len(), count) }
}

/// Number, node and count. `case` is operation, arrangement and i; `nodes` d, n and m.
pub fn lower_instruction(pool: &mut Words, count: usize, case: [u64; 3], nodes: [usize; 3]) -> (u64, usize, usize) {
    let (at, length) = pool.lend();
    let [operation, arrangement, i] = case;
    let [d, n, m] = nodes;
    let (mut node, mut after) = (77, 77);
    let number = unsafe { sys::neon_lower_instruction(at, length, count, operation, arrangement, i, d, n, m, &mut node, &mut after) };
    pool.look();
    (number, node, after)
}

pub fn lower_block(pool: &mut Words, records: &[u64], results: &mut Words) -> u64 {
    let (at, length) = pool.lend();
    let (to, entries) = results.lend();
    assert!(entries >= 34, "the results are 34 words");
    let number = unsafe { sys::neon_lower_block(at, length, records.as_ptr(), records.len(), to.cast()) };
    pool.look();
    results.look();
    number
}

/// As `lower_block`, with 35 results.
pub fn lower_block_saturation(pool: &mut Words, records: &[u64], results: &mut Words) -> u64 {
    let (at, length) = pool.lend();
    let (to, entries) = results.lend();
    assert!(entries == 35, "the results are 35 words");
    let number = unsafe { sys::neon_lower_block_saturation(at, length, records.as_ptr(), records.len(), to.cast()) };
    pool.look();
    results.look();
    number
}

pub fn write_text(pool: &[u64], count: usize, node: usize, buffer: &mut Lent<u8>) -> (u64, usize) {
    let (at, size) = buffer.lend();
    let mut length = 77;
    let number = unsafe { sys::neon_write_text(pool.as_ptr(), pool.len(), count, node, at, size, &mut length) };
    buffer.look();
    (number, length)
}

pub fn text_length(pool: &[u64], count: usize, node: usize, ceiling: u32) -> (u64, u64) {
    let mut length = 77;
    let number = unsafe { sys::neon_text_length(pool.as_ptr(), pool.len(), count, node, ceiling, &mut length) };
    (number, length)
}

/// Number and set.
pub fn registers_of(pool: &[u64], count: usize, node: usize) -> (u64, u64) {
    let mut set = 77;
    let number = unsafe { sys::neon_registers_of(pool.as_ptr(), pool.len(), count, node, &mut set) };
    (number, set)
}

/// Two words a register, the low one first.
pub fn register_words(registers: &[u128; 32]) -> Vec<u64> {
    registers.iter().flat_map(|v| [*v as u64, (*v >> 64) as u64]).collect()
}

/// Number and visits; the value goes to `found`, of three words. `start` has 64.
pub fn value_to(found: &mut Words, pool: &[u64], count: usize, node: usize, start: &[u64], allowance: u64) -> (u64, u64) {
    let mut visits = 77;
    let (to, entries) = found.lend();
    assert!(entries == 3 && start.len() == 64);
    let number = unsafe { sys::neon_value(pool.as_ptr(), pool.len(), count, node, start.as_ptr().cast(), allowance, to.cast(), &mut visits) };
    found.look();
    (number, visits)
}

/// Number, value and visits.
pub fn value(pool: &[u64], count: usize, node: usize, start: &[u128; 32], allowance: u64) -> (u64, [u64; 3], u64) {
    let mut found = words(&[77; 3]);
    let (number, visits) = value_to(&mut found, pool, count, node, &register_words(start), allowance);
    (number, found.items().try_into().expect("three words"), visits)
}

/// Number, count and position.
pub fn read_words(bytes: &[u8], records: &mut Words) -> (u64, usize, usize) {
    let (to, entries) = records.lend();
    let (mut count, mut position) = (77, 77);
    let number = unsafe { sys::neon_read_words(bytes.as_ptr(), bytes.len(), to, entries, &mut count, &mut position) };
    records.look();
    (number, count, position)
}

/// Number, count and position.
pub fn write_words(records: &[u64], bytes: &mut Lent<u8>) -> (u64, usize, usize) {
    let (to, length) = bytes.lend();
    let (mut count, mut position) = (77, 77);
    let number = unsafe { sys::neon_write_words(records.as_ptr(), records.len(), to, length, &mut count, &mut position) };
    bytes.look();
    (number, count, position)
}

/// Number, count and position.
pub fn read_lines(bytes: &[u8], records: &mut Words) -> (u64, usize, usize) {
    let (to, entries) = records.lend();
    let (mut count, mut position) = (77, 77);
    let number = unsafe { sys::neon_read_lines(bytes.as_ptr(), bytes.len(), to, entries, &mut count, &mut position) };
    records.look();
    (number, count, position)
}

/// A pool's words, its count and a node.
pub type Chosen<'a> = (&'a [u64], usize, usize);

/// Number, node and count.
pub fn join((first, c, a): Chosen, (second, d, b): Chosen, joined: &mut Words) -> (u64, usize, usize) {
    let (at, length) = joined.lend();
    let (mut node, mut count) = (77, 77);
    let number = unsafe {
        sys::neon_join(first.as_ptr(), first.len(), c, a, second.as_ptr(), second.len(), d, b, at, length, &mut node, &mut count)
    };
    joined.look();
    (number, node, count)
}

/// Number and count.
pub fn canonical((pool, count, root): Chosen, out: &mut Words) -> (u64, usize) {
    let (at, length) = out.lend();
    let mut after = 77;
    let number = unsafe { sys::neon_canonical(pool.as_ptr(), pool.len(), count, root, at, length, &mut after) };
    out.look();
    (number, after)
}

/// Number; the position and the saturation bit go to `results`, of two words, and `registers` has 64.
pub fn run_in_place(registers: &mut Words, records: &[u64], results: &mut Words) -> u64 {
    let ((at, many), (to, entries)) = (registers.lend(), results.lend());
    assert!(many == 64 && entries == 2);
    let number = unsafe { sys::neon_run_block(at.cast(), records.as_ptr(), records.len(), to.cast()) };
    registers.look();
    results.look();
    number
}

/// Number, position and the registers after the block.
pub fn run_block(start: &[u128; 32], records: &[u64]) -> (u64, u64, [u128; 32]) {
    let (number, [position, _], after) = run_with_bit(start, records);
    (number, position, after)
}

/// Number, position with the saturation bit, and the registers after the block.
pub fn run_with_bit(start: &[u128; 32], records: &[u64]) -> (u64, [u64; 2], [u128; 32]) {
    let mut registers = words(&register_words(start));
    let mut results = words(&[77, 77]);
    let number = run_in_place(&mut registers, records, &mut results);
    let after = registers.items();
    let results = results.items().try_into().expect("two words");
    (number, results, std::array::from_fn(|r| u128::from(after[2 * r + 1]) << 64 | u128::from(after[2 * r])))
}

/// Number and length of S-1's script, or of the bits `lane`.
pub fn write_script(pool: &[u64], count: usize, [a, b]: [usize; 2], lane: Option<[u64; 2]>, buffer: &mut Lent<u8>) -> (u64, usize) {
    let (at, size) = buffer.lend();
    let mut length = 77;
    let number = match lane {
        None => unsafe { sys::neon_write_script(pool.as_ptr(), pool.len(), count, a, b, at, size, &mut length) },
        Some([hi, lo]) => unsafe { sys::neon_write_lane_script(pool.as_ptr(), pool.len(), count, a, b, hi, lo, at, size, &mut length) },
    };
    buffer.look();
    (number, length)
}

pub fn script_length(pool: &[u64], count: usize, [a, b]: [usize; 2], lane: Option<[u64; 2]>) -> (u64, usize) {
    let mut length = 77;
    let number = match lane {
        None => unsafe { sys::neon_script_length(pool.as_ptr(), pool.len(), count, a, b, &mut length) },
        Some([hi, lo]) => unsafe { sys::neon_lane_script_length(pool.as_ptr(), pool.len(), count, a, b, hi, lo, &mut length) },
    };
    (number, length)
}

/// The working memory of questions.
pub struct Memory {
    pub graph: Words,
    pub bits: Words,
    pub table: Words,
    pub marks: Words,
    pub starts: Words,
}

impl Memory {
    pub fn new() -> Self {
        let [graph, bits, table, marks, starts] = [(); 5].map(|()| words(&[]));
        Self { graph, bits, table, marks, starts }
    }

    /// Places for so many gates and literals, and an empty table of so many entries.
    pub fn fit(&mut self, gates: usize, places: usize, entries: usize) {
        self.graph.fit(gates);
        self.bits.fit(places);
        self.table.fit(entries);
        self.table.items_mut().fill(0);
    }

    fn look(&self) {
        [&self.graph, &self.bits, &self.table, &self.marks, &self.starts].into_iter().for_each(Lent::look);
    }
}

/// Number, gates and places.
pub fn question_room((first, c, _): Chosen, (second, d, _): Chosen) -> (u64, usize, usize) {
    let (mut gates, mut places) = (77, 77);
    let number = unsafe {
        sys::neon_question_room(first.as_ptr(), first.len(), c, second.as_ptr(), second.len(), d, &mut gates, &mut places)
    };
    (number, gates, places)
}

/// Number, count and literal.
pub fn question((first, c, a): Chosen, (second, d, b): Chosen, [hi, lo]: [usize; 2], memory: &mut Memory) -> (u64, usize, u64) {
    let [(graph, gates), (bits, places), (table, entries)] = [&mut memory.graph, &mut memory.bits, &mut memory.table].map(Lent::lend);
    let (mut count, mut literal) = (77, 77);
    let number = unsafe {
        sys::neon_question(
            first.as_ptr(), first.len(), c, a, second.as_ptr(), second.len(), d, b, hi, lo, graph, gates, bits, places, table, entries, &mut count,
            &mut literal,
        )
    };
    memory.look();
    (number, count, literal)
}

/// Number and step.
pub fn equal((first, c, a): Chosen, (second, d, b): Chosen, [hi, lo]: [usize; 2], refutation: &[u32], memory: &mut Memory) -> (u64, usize) {
    let Memory { graph, bits, table, marks, starts } = &mut *memory;
    let [(graph, gates), (bits, places), (table, entries), (marks, many), (starts, most)] = [graph, bits, table, marks, starts].map(Lent::lend);
    let mut step = 77;
    let number = unsafe {
        sys::neon_equal(
            first.as_ptr(), first.len(), c, a, second.as_ptr(), second.len(), d, b, hi, lo, refutation.as_ptr(), refutation.len(), graph, gates,
            bits, places, table, entries, marks, many, starts, most, &mut step,
        )
    };
    memory.look();
    (number, step)
}
