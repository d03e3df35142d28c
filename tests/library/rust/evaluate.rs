//! The SMT-LIB value of the nodes of a pool, on numbers of 192 bits.
use crate::pools::Node;

pub type Value = [u64; 3];

pub fn of(v: u128) -> Value {
    [v as u64, (v >> 64) as u64, 0]
}

pub fn low(v: Value) -> u128 {
    u128::from(v[1]) << 64 | u128::from(v[0])
}

fn cut(v: Value, width: u64) -> Value {
    let part = |k: u64| match width.saturating_sub(64 * k) {
        0 => 0,
        w if w < 64 => (1 << w) - 1,
        _ => u64::MAX,
    };
    [v[0] & part(0), v[1] & part(1), v[2] & part(2)]
}

fn not(v: Value) -> Value {
    v.map(|x| !x)
}

fn add(a: Value, b: Value) -> Value {
    let mut carry = 0u128;
    std::array::from_fn(|k| {
        let sum = u128::from(a[k]) + u128::from(b[k]) + carry;
        carry = sum >> 64;
        sum as u64
    })
}

fn negative(v: Value) -> Value {
    add(not(v), of(1))
}

fn multiply(a: Value, b: Value) -> Value {
    let mut r = [0u64; 3];
    for i in 0..3 {
        let mut carry = 0u128;
        for j in 0..3 - i {
            let t = u128::from(a[i]) * u128::from(b[j]) + u128::from(r[i + j]) + carry;
            r[i + j] = t as u64;
            carry = t >> 64;
        }
    }
    r
}

fn left(v: Value, by: u64) -> Value {
    let (words, bits) = ((by / 64) as usize, by % 64);
    let word = |k: usize| if by < 192 && k >= words { v[k - words] } else { 0 };
    std::array::from_fn(|k| match (k, bits) {
        (0, _) | (_, 0) => word(k) << bits,
        _ => word(k) << bits | word(k - 1) >> (64 - bits),
    })
}

fn right(v: Value, by: u64) -> Value {
    let (words, bits) = ((by / 64) as usize, by % 64);
    let word = |k: usize| if k + words < 3 { v[k + words] } else { 0 };
    std::array::from_fn(|k| if bits == 0 { word(k) } else { word(k) >> bits | word(k + 1) << (64 - bits) })
}

/// The number in two's complement, of `width` bits, in 192.
fn signed(v: Value, width: u64) -> Value {
    let top = v[((width - 1) / 64) as usize] >> ((width - 1) % 64) & 1;
    if top == 0 { v } else { std::array::from_fn(|k| v[k] | !cut([u64::MAX; 3], width)[k]) }
}

/// A shift's amount, 192 if it is that or more.
fn amount(v: Value) -> u64 {
    if v[1] == 0 && v[2] == 0 { v[0].min(192) } else { 192 }
}

fn less(a: Value, b: Value) -> bool {
    [a[2], a[1], a[0]] < [b[2], b[1], b[0]]
}

fn both(a: Value, b: Value, f: impl Fn(u64, u64) -> u64) -> Value {
    std::array::from_fn(|k| f(a[k], b[k]))
}

/// The values of the first `count` nodes of a valid pool at a start; a condition is 0 or 1.
pub fn values(pool: &[u64], count: usize, start: &[u128; 32]) -> Vec<Value> {
    let mut all: Vec<Value> = Vec::with_capacity(count);
    for n in 0..count {
        let node = Node::at(pool, n);
        let operand = |k: usize| all[node.operands[k]];
        let width = |k: usize| pool[4 * node.operands[k]] >> 16 & 0xffff;
        let (w, [x, y]) = (node.width, node.data);
        let truth = |b: bool| of(u128::from(b));
        let flip = |v: Value| both(v, left(of(1), width(0) - 1), |p, q| p ^ q);
        let value = match node.kind {
            1 => of(start[x as usize]),
            2 => [x, y, 0],
            3 => add(operand(0), operand(1)),
            4 => add(operand(0), negative(operand(1))),
            5 => multiply(operand(0), operand(1)),
            6 => both(operand(0), operand(1), |p, q| p & q),
            7 => both(operand(0), operand(1), |p, q| p | q),
            8 => both(operand(0), operand(1), |p, q| p ^ q),
            9 => left(operand(0), amount(operand(1))),
            10 => right(operand(0), amount(operand(1))),
            11 => {
                let (v, by) = (signed(operand(0), w), amount(operand(1)));
                let fill = if v[2] >> 63 == 1 { not(right(not([0; 3]), by)) } else { [0; 3] };
                both(right(v, by), fill, |p, q| p | q)
            }
            12 => truth(operand(0) == operand(1)),
            13 => truth(less(operand(0), operand(1))),
            14 => truth(less(flip(operand(0)), flip(operand(1)))),
            15 => operand(if operand(0) == of(1) { 1 } else { 2 }),
            16 => right(operand(0), y),
            17 => both(left(operand(0), width(1)), operand(1), |p, q| p | q),
            18 => operand(0),
            _ => signed(operand(0), width(0)),
        };
        all.push(if w == 0 { value } else { cut(value, w) });
    }
    all
}

/// The visits that each node's value takes (document 02, S-6), or the greatest number if they are more: of an Ite the condition and
/// the chosen arm are visited, of any other node all operands, and each visit counts one.
pub fn visits(pool: &[u64], values: &[Value]) -> Vec<u64> {
    let mut all: Vec<u64> = Vec::with_capacity(values.len());
    for n in 0..values.len() {
        let node = Node::at(pool, n);
        let [a, b, c] = node.operands;
        let visited = match node.kind {
            15 => vec![a, if values[a] == of(1) { b } else { c }],
            _ => node.used().to_vec(),
        };
        all.push(visited.iter().fold(1, |sum: u64, &m| sum.saturating_add(all[m])));
    }
    all
}
