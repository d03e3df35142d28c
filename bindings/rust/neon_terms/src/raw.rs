//! The calls of libneon_terms.a on slices: include/neon_terms.h tells what they promise. Each is safe to call on any slices and numbers: a
//! slice of Rust is aligned and not null, one that is lent to be written overlaps no other, and a call that needs more stack than its thread
//! has gets a thread of its own.

use std::sync::OnceLock;

use neon_terms_sys as sys;

use crate::{stack, version};

pub const RESERVE: usize = 768;
/// A block has no more records.
pub const MOST_RECORDS: usize = 85;
pub const RESULTS: usize = 34;
pub const SATURATION_RESERVE: usize = 2048;
pub const SATURATION_RECORDS: usize = 31;
pub const SATURATION_RESULTS: usize = 35;
/// The number for no node. A pool has at most this many places.
pub const NO_NODE: usize = 65535;

/// For fewer bytes of stack than these the levels of a term are not counted.
const FEW: usize = 8 << 10;

/// Bytes of stack for a level of a term, of texts and of values: the header's numbers, the larger.
const LEVEL: usize = 80;

/// Bytes of stack that a length takes in addition to its levels, and a canonical pool.
const LENGTH_STACK: usize = 600 << 10;
const CANONICAL_STACK: usize = 1 << 20;

/// Bytes of stack for a call that goes down the term of a node. No term has more levels than nodes up to it; only where these are many are they
/// counted.
fn stack_of(pool: &[u64], count: usize, node: usize) -> usize {
    let nodes = count.min(node.saturating_add(1));
    if LEVEL * nodes <= FEW { LEVEL * nodes } else { LEVEL * levels(&pool[..pool.len().min(4 * nodes)]) }
}

/// The most levels that the term of a pool's last node has. An operand that a kind does not use is 0, and node 0 is a leaf.
fn levels(pool: &[u64]) -> usize {
    let mut below: Vec<u32> = Vec::with_capacity(pool.len() / 4);
    for node in pool.chunks_exact(4) {
        let operands = [node[1], node[1] >> 16, node[1] >> 32].map(|word| (word & 0xffff) as usize);
        let most = operands.iter().filter_map(|&operand| below.get(operand)).max();
        below.push(most.map_or(1, |most| most + 1));
    }
    below.last().map_or(0, |&most| most as usize)
}

/// Panics if the archive is of an incompatible version; checked once.
fn linked() {
    static LINKED: OnceLock<()> = OnceLock::new();
    LINKED.get_or_init(|| {
        if let Err(wrong) = version::check() {
            panic!("{wrong}");
        }
    });
}

pub fn form_code(operation: u64, arrangement: u64) -> u64 {
    linked();
    sys::neon_form_code(operation, arrangement)
}

pub fn pool_check(pool: &[u64], count: usize) -> bool {
    linked();
    unsafe { sys::neon_pool_check(pool.as_ptr(), pool.len(), count) }
}

/// Number, node and count.
pub fn lower_instruction(pool: &mut [u64], count: usize, [operation, arrangement, i]: [u64; 3], [d, n, m]: [usize; 3]) -> (u64, usize, usize) {
    linked();
    let (mut node, mut after) = (0, 0);
    let number = unsafe {
        sys::neon_lower_instruction(pool.as_mut_ptr(), pool.len(), count, operation, arrangement, i, d, n, m, &mut node, &mut after)
    };
    (number, node, after)
}

pub fn lower_block(pool: &mut [u64], records: &[u64], results: &mut [u64; RESULTS]) -> u64 {
    linked();
    unsafe { sys::neon_lower_block(pool.as_mut_ptr(), pool.len(), records.as_ptr(), records.len(), results) }
}

pub fn lower_block_saturation(pool: &mut [u64], records: &[u64], results: &mut [u64; SATURATION_RESULTS]) -> u64 {
    linked();
    unsafe { sys::neon_lower_block_saturation(pool.as_mut_ptr(), pool.len(), records.as_ptr(), records.len(), results) }
}

/// Number and length.
pub fn write_text(pool: &[u64], count: usize, node: usize, buffer: &mut [u8]) -> (u64, usize) {
    linked();
    stack::with(stack_of(pool, count, node), || {
        let mut length = 0;
        let number = unsafe { sys::neon_write_text(pool.as_ptr(), pool.len(), count, node, buffer.as_mut_ptr(), buffer.len(), &mut length) };
        (number, length)
    })
}

/// Number and length.
pub fn text_length(pool: &[u64], count: usize, node: usize, ceiling: u32) -> (u64, u64) {
    linked();
    stack::with(LENGTH_STACK + stack_of(pool, count, node), || {
        let mut length = 0;
        let number = unsafe { sys::neon_text_length(pool.as_ptr(), pool.len(), count, node, ceiling, &mut length) };
        (number, length)
    })
}

/// Number and set.
pub fn registers_of(pool: &[u64], count: usize, node: usize) -> (u64, u64) {
    linked();
    let mut set = 0;
    let number = unsafe { sys::neon_registers_of(pool.as_ptr(), pool.len(), count, node, &mut set) };
    (number, set)
}

/// Number, value and visits.
pub fn value(pool: &[u64], count: usize, node: usize, start: &[u64; 64], allowance: u64) -> (u64, [u64; 3], u64) {
    linked();
    stack::with(stack_of(pool, count, node), || {
        let (mut value, mut visits) = ([0; 3], 0);
        let number = unsafe { sys::neon_value(pool.as_ptr(), pool.len(), count, node, start, allowance, &mut value, &mut visits) };
        (number, value, visits)
    })
}

/// Number, count of records and position.
pub fn read_words(bytes: &[u8], records: &mut [u64]) -> (u64, usize, usize) {
    linked();
    let (mut count, mut position) = (0, 0);
    let number = unsafe { sys::neon_read_words(bytes.as_ptr(), bytes.len(), records.as_mut_ptr(), records.len(), &mut count, &mut position) };
    (number, count, position)
}

/// Number, count of words and position.
pub fn write_words(records: &[u64], bytes: &mut [u8]) -> (u64, usize, usize) {
    linked();
    let (mut count, mut position) = (0, 0);
    let number = unsafe { sys::neon_write_words(records.as_ptr(), records.len(), bytes.as_mut_ptr(), bytes.len(), &mut count, &mut position) };
    (number, count, position)
}

/// Number, count of records and position.
pub fn read_lines(bytes: &[u8], records: &mut [u64]) -> (u64, usize, usize) {
    linked();
    let (mut count, mut position) = (0, 0);
    let number = unsafe { sys::neon_read_lines(bytes.as_ptr(), bytes.len(), records.as_mut_ptr(), records.len(), &mut count, &mut position) };
    (number, count, position)
}

/// A pool's words, its count and a node.
pub type Chosen<'a> = (&'a [u64], usize, usize);

/// Number, node and count.
pub fn join((first, c, a): Chosen, (second, d, b): Chosen, joined: &mut [u64]) -> (u64, usize, usize) {
    linked();
    let (mut node, mut count) = (0, 0);
    let number = unsafe {
        sys::neon_join(
            first.as_ptr(), first.len(), c, a, second.as_ptr(), second.len(), d, b, joined.as_mut_ptr(), joined.len(), &mut node, &mut count,
        )
    };
    (number, node, count)
}

/// Number and count.
pub fn canonical(pool: &[u64], count: usize, root: usize, out: &mut [u64]) -> (u64, usize) {
    linked();
    stack::with(CANONICAL_STACK, || {
        let mut after = 0;
        let number = unsafe { sys::neon_canonical(pool.as_ptr(), pool.len(), count, root, out.as_mut_ptr(), out.len(), &mut after) };
        (number, after)
    })
}

/// Number, position and whether a lane saturated; the registers are run in place.
pub fn run_block(registers: &mut [u64; 64], records: &[u64]) -> (u64, usize, bool) {
    linked();
    let mut results = [0; 2];
    let number = unsafe { sys::neon_run_block(registers, records.as_ptr(), records.len(), &mut results) };
    (number, results[0] as usize, results[1] != 0)
}

/// Number and length.
pub fn write_script(pool: &[u64], count: usize, [a, b]: [usize; 2], buffer: &mut [u8]) -> (u64, usize) {
    linked();
    let mut length = 0;
    let number = unsafe { sys::neon_write_script(pool.as_ptr(), pool.len(), count, a, b, buffer.as_mut_ptr(), buffer.len(), &mut length) };
    (number, length)
}

/// Number and length.
pub fn script_length(pool: &[u64], count: usize, [a, b]: [usize; 2]) -> (u64, usize) {
    linked();
    let mut length = 0;
    let number = unsafe { sys::neon_script_length(pool.as_ptr(), pool.len(), count, a, b, &mut length) };
    (number, length)
}

/// Number and length.
pub fn write_lane_script(pool: &[u64], count: usize, [a, b]: [usize; 2], [hi, lo]: [u64; 2], buffer: &mut [u8]) -> (u64, usize) {
    linked();
    let mut length = 0;
    let (at, bytes) = (buffer.as_mut_ptr(), buffer.len());
    let number = unsafe { sys::neon_write_lane_script(pool.as_ptr(), pool.len(), count, a, b, hi, lo, at, bytes, &mut length) };
    (number, length)
}

/// Number and length.
pub fn lane_script_length(pool: &[u64], count: usize, [a, b]: [usize; 2], [hi, lo]: [u64; 2]) -> (u64, usize) {
    linked();
    let mut length = 0;
    let number = unsafe { sys::neon_lane_script_length(pool.as_ptr(), pool.len(), count, a, b, hi, lo, &mut length) };
    (number, length)
}

/// Number, gates and places.
pub fn question_room((first, c, _): Chosen, (second, d, _): Chosen) -> (u64, usize, usize) {
    linked();
    let (mut gates, mut places) = (0, 0);
    let number = unsafe {
        sys::neon_question_room(first.as_ptr(), first.len(), c, second.as_ptr(), second.len(), d, &mut gates, &mut places)
    };
    (number, gates, places)
}

/// Number, count and literal. `lent` is graph, bits and table.
pub fn question((first, c, a): Chosen, (second, d, b): Chosen, [hi, lo]: [usize; 2], lent: [&mut [u64]; 3]) -> (u64, usize, u64) {
    linked();
    let [graph, bits, table] = lent;
    let (mut count, mut literal) = (0, 0);
    let number = unsafe {
        sys::neon_question(
            first.as_ptr(), first.len(), c, a, second.as_ptr(), second.len(), d, b, hi, lo, graph.as_mut_ptr(), graph.len(),
            bits.as_mut_ptr(), bits.len(), table.as_mut_ptr(), table.len(), &mut count, &mut literal,
        )
    };
    (number, count, literal)
}

/// Number and step. `lent` is graph, bits, table, marks and starts.
pub fn equal((first, c, a): Chosen, (second, d, b): Chosen, [hi, lo]: [usize; 2], refutation: &[u32], lent: [&mut [u64]; 5]) -> (u64, usize) {
    linked();
    let [graph, bits, table, marks, starts] = lent;
    let mut step = 0;
    let number = unsafe {
        sys::neon_equal(
            first.as_ptr(), first.len(), c, a, second.as_ptr(), second.len(), d, b, hi, lo, refutation.as_ptr(), refutation.len(),
            graph.as_mut_ptr(), graph.len(), bits.as_mut_ptr(), bits.len(), table.as_mut_ptr(), table.len(), marks.as_mut_ptr(), marks.len(),
            starts.as_mut_ptr(), starts.len(), &mut step,
        )
    };
    (number, step)
}

#[cfg(test)]
mod tests {
    use super::*;

    #[test]
    fn levels_of_chains_and_of_leaves() {
        assert_eq!(levels(&[]), 0);
        let var = [1 + (128 << 16) + (1 << 32), 0, 0, 0];
        let sum = |a: u64, b: u64| [3 + (128 << 16) + (1 << 32), a + (b << 16), 0, 0];
        assert_eq!(levels(&var), 1);
        assert_eq!(levels(&[var, sum(0, 0), sum(1, 0), sum(0, 0)].concat()), 2);
        assert_eq!(levels(&[var, sum(0, 0), sum(1, 0), sum(0, 2)].concat()), 4);
    }
}
