//! And-inverter graphs of pools in plain Rust, which the library's times are compared with. The rules of folding are the same: constants, x and x,
//! x and not x, an operand that the other operand's gate has, and gates that are there already. Memory grows, and nothing is checked.

/// Variables before the first gate.
pub const INPUTS: usize = 4097;

/// Places of a node's literals.
pub const STRIDE: usize = 129;

/// Entries of the table that are looked at for one gate.
const PROBES: usize = 512;

pub struct Graph {
    /// By variable: left literal above right literal, left the greater; 0 for the constant and the inputs.
    variables: Vec<u64>,
    table: Vec<u32>,
}

impl Graph {
    pub fn new() -> Self {
        Self { variables: vec![0; INPUTS], table: vec![0; 1 << 16] }
    }

    pub fn gates(&self) -> usize {
        self.variables.len() - INPUTS
    }

    /// Bytes of the graph and of the table.
    pub fn bytes(&self) -> usize {
        8 * self.variables.len() + 4 * self.table.len()
    }

    /// The literals of the gate that a literal is of.
    fn operands(&self, literal: u32) -> Option<[u32; 2]> {
        let word = self.variables[literal as usize >> 1];
        (word != 0).then_some([(word >> 32) as u32, word as u32])
    }

    pub fn and(&mut self, a: u32, b: u32) -> u32 {
        let (mut a, mut b) = (a.max(b), a.min(b));
        loop {
            if b == 0 || a == b ^ 1 {
                return 0;
            }
            if b == 1 || a == b {
                return a;
            }
            let Some([x, y]) = self.operands(a) else { break };
            let (same, opposite) = (x == b || y == b, x == b ^ 1 || y == b ^ 1);
            match (a & 1, same, opposite) {
                (0, true, _) => return a,
                (0, _, true) => return 0,
                (1, _, true) => return b,
                (1, true, _) => {
                    let other = (if x == b { y } else { x }) ^ 1;
                    (a, b) = (b.max(other), b.min(other));
                }
                _ => break,
            }
        }
        self.gate(u64::from(a) << 32 | u64::from(b))
    }

    /// The gate with these operands: one that is there, or a new one.
    fn gate(&mut self, word: u64) -> u32 {
        if 2 * self.variables.len() > self.table.len() {
            self.grow();
        }
        let new = self.variables.len() as u32;
        for slot in slots(word, self.table.len()) {
            match self.table[slot] {
                0 => {
                    self.table[slot] = new;
                    break;
                }
                old if self.variables[old as usize] == word => return 2 * old,
                _ => {}
            }
        }
        self.variables.push(word);
        2 * new
    }

    fn grow(&mut self) {
        self.table = vec![0; 2 * self.table.len()];
        for v in INPUTS..self.variables.len() {
            if let Some(slot) = slots(self.variables[v], self.table.len()).find(|&slot| self.table[slot] == 0) {
                self.table[slot] = v as u32;
            }
        }
    }

    fn or(&mut self, a: u32, b: u32) -> u32 {
        self.and(a ^ 1, b ^ 1) ^ 1
    }

    /// a and b is what the carry of an adder needs too.
    fn xor(&mut self, a: u32, b: u32) -> u32 {
        let (both, none) = (self.and(a, b), self.and(a ^ 1, b ^ 1));
        self.and(both ^ 1, none ^ 1)
    }

    fn mux(&mut self, condition: u32, a: u32, b: u32) -> u32 {
        if a == b {
            return a;
        }
        if a == b ^ 1 {
            return self.xor(condition, b);
        }
        let (first, second) = (self.and(condition, a), self.and(condition ^ 1, b));
        self.or(first, second)
    }

    fn carry(&mut self, a: u32, b: u32, c: u32) -> u32 {
        let half = self.xor(a, b);
        let (both, through) = (self.and(a, b), self.and(half, c));
        self.or(both, through)
    }

    fn full_add(&mut self, a: u32, b: u32, c: u32) -> (u32, u32) {
        let half = self.xor(a, b);
        let sum = self.xor(half, c);
        (sum, self.carry(a, b, c))
    }

    /// a + b, or a - b as a + not b + 1 if `invert` is 1.
    fn add(&mut self, bits: &mut [u32], [out, a, b]: [usize; 3], w: usize, invert: u32) {
        let mut carry = invert;
        for j in 0..w {
            (bits[out + j], carry) = self.full_add(bits[a + j], bits[b + j] ^ invert, carry);
        }
    }

    /// Row by row; the greater factor first, so that exchanged factors give the same gates.
    fn multiply(&mut self, bits: &mut [u32], [out, a, b]: [usize; 3], w: usize) {
        let (a, b) = if bits[b..b + w] > bits[a..a + w] { (b, a) } else { (a, b) };
        bits[out..out + w].fill(0);
        for i in 0..w {
            let row = bits[b + i];
            let mut carry = 0;
            for j in if row == 0 { w } else { i }..w {
                let bit = self.and(bits[a + j - i], row);
                (bits[out + j], carry) = self.full_add(bits[out + j], bit, carry);
            }
        }
    }

    /// Stage by stage: by 1, 2, 4 and so on; `from` is the place that bit j is moved from, and `fill` what comes from outside.
    fn shift(&mut self, bits: &mut [u32], [out, a, b]: [usize; 3], w: usize, to_left: bool, fill: u32) {
        bits.copy_within(a..a + w, out);
        let stages = w.next_power_of_two().trailing_zeros() as usize;
        for k in 0..stages {
            for j in 0..w {
                let at = if to_left { w - 1 - j } else { j };
                let from = if to_left { at.checked_sub(1 << k) } else { Some(at + (1 << k)).filter(|&from| from < w) };
                let moved = from.map_or(fill, |from| bits[out + from]);
                bits[out + at] = self.mux(bits[b + k], moved, bits[out + at]);
            }
        }
        let beyond = (stages..w).fold(0, |beyond, k| self.or(bits[b + k], beyond));
        (0..w).for_each(|j| bits[out + j] = self.mux(beyond, fill, bits[out + j]));
    }

    fn differ(&mut self, bits: &[u32], a: usize, b: usize, w: usize) -> u32 {
        let mut same = 1;
        for j in 0..w {
            let differ = self.xor(bits[a + j], bits[b + j]);
            same = self.and(same, differ ^ 1);
        }
        same ^ 1
    }

    /// No carry out of a + not b + 1; for signed numbers with the top bits exchanged.
    fn less(&mut self, bits: &[u32], a: usize, b: usize, w: usize, signed: bool) -> u32 {
        let mut carry = 1;
        for j in 0..w {
            let (x, y) = if signed && j == w - 1 { (bits[b + j], bits[a + j]) } else { (bits[a + j], bits[b + j]) };
            carry = self.carry(x, y ^ 1, carry);
        }
        carry ^ 1
    }

    /// The literals of the nodes of a pool: those of node n are at 129 n, the lowest first.
    pub fn pool(&mut self, words: &[u64]) -> Vec<u32> {
        let mut bits = vec![0; STRIDE * words.len() / 4];
        (0..words.len() / 4).for_each(|n| self.node(words, &mut bits, n));
        bits
    }

    fn node(&mut self, words: &[u64], bits: &mut [u32], n: usize) {
        let width = |n: usize| (words[4 * n] >> 16 & 0xffff) as usize;
        let [operands, x, y] = [1, 2, 3].map(|k| words[4 * n + k]);
        let [na, nb, nc] = [0, 16, 32].map(|shift| (operands >> shift & 0xffff) as usize);
        let ([out, a, b, c], w, wa) = ([n, na, nb, nc].map(|m| STRIDE * m), width(n), width(na));
        match words[4 * n] & 0xffff {
            1 => (0..w).for_each(|j| bits[out + j] = 2 * (1 + 128 * x as u32 + j as u32)),
            2 => (0..w.min(128)).for_each(|j| bits[out + j] = ((u128::from(y) << 64 | u128::from(x)) >> j & 1) as u32),
            3 => self.add(bits, [out, a, b], w, 0),
            4 => self.add(bits, [out, a, b], w, 1),
            5 => self.multiply(bits, [out, a, b], w),
            6 => (0..w).for_each(|j| bits[out + j] = self.and(bits[a + j], bits[b + j])),
            7 => (0..w).for_each(|j| bits[out + j] = self.or(bits[a + j], bits[b + j])),
            8 => (0..w).for_each(|j| bits[out + j] = self.xor(bits[a + j], bits[b + j])),
            9 => self.shift(bits, [out, a, b], w, true, 0),
            10 => self.shift(bits, [out, a, b], w, false, 0),
            11 => self.shift(bits, [out, a, b], w, false, bits[a + w - 1]),
            12 => bits[out] = self.differ(bits, a, b, wa) ^ 1,
            13 => bits[out] = self.less(bits, a, b, wa, false),
            14 => bits[out] = self.less(bits, a, b, wa, true),
            15 => (0..w).for_each(|j| bits[out + j] = self.mux(bits[a], bits[b + j], bits[c + j])),
            16 => bits.copy_within(a + y as usize..a + y as usize + w, out),
            17 => {
                bits.copy_within(b..b + w - wa, out);
                bits.copy_within(a..a + wa, out + w - wa);
            }
            kind => {
                let fill = if kind == 18 { 0 } else { bits[a + wa - 1] };
                bits.copy_within(a..a + wa, out);
                bits[out + wa..out + w].fill(fill);
            }
        }
    }

    /// The literal that is true where bits hi to lo of node a of the first pool and of node b of the second differ.
    pub fn question(&mut self, first: (&[u64], usize), second: (&[u64], usize), hi: usize, lo: usize) -> u32 {
        let (mut bits, other) = (self.pool(first.0), self.pool(second.0));
        let second_at = bits.len() + STRIDE * second.1;
        bits.extend(other);
        self.differ(&bits, STRIDE * first.1 + lo, second_at + lo, hi - lo + 1)
    }
}

/// The places of the table for a gate, in order.
fn slots(word: u64, size: usize) -> impl Iterator<Item = usize> {
    let mixed = (word ^ word >> 29).wrapping_mul(0xbf58_476d_1ce4_e5b9);
    let at = (mixed ^ mixed >> 32) as usize;
    (0..PROBES).map(move |k| (at + k) & (size - 1))
}

/// The hints of an accepted refutation of a literal; panics if it is refused. Gates are left literal + 2^32 * right literal.
pub fn hints_of_accepted(gates: &[u64], literal: u32, words: &[u32], marks: &mut [u32]) -> usize {
    marks.fill(0);
    let (mut starts, mut at, mut hints) = (vec![0], 0, 0);
    loop {
        let step = starts.len() as u32;
        let (from, to) = (at + 2 + words[at] as usize, at + 2 + (words[at] + words[at + 1 + words[at] as usize]) as usize);
        words[at + 1..from - 1].iter().for_each(|&literal| marks[literal as usize] = step);
        marks[0] = step;
        let mut conflict = false;
        for &hint in &words[from..to] {
            hints += 1;
            let left = match (hint % 4, hint as usize / 4) {
                (3, 0) => left_of(&[literal], marks, step),
                (3, cited) => left_of(&words[starts[cited] + 1..][..words[starts[cited]] as usize], marks, step),
                (part, gate) => {
                    let (it, a, b) = (2 * (INPUTS + gate) as u32, gates[gate] as u32, (gates[gate] >> 32) as u32);
                    match part {
                        0 => left_of(&[it ^ 1, a], marks, step),
                        1 => left_of(&[it ^ 1, b], marks, step),
                        _ => left_of(&[it, a ^ 1, b ^ 1], marks, step),
                    }
                }
            };
            match left {
                Some(literal) => marks[literal as usize ^ 1] = step,
                None => {
                    conflict = true;
                    break;
                }
            }
        }
        assert!(conflict, "step {step} is refused");
        if words[at] == 0 {
            return hints;
        }
        starts.push(at);
        at = to;
    }
}

/// The only literal of a clause that is not false; None if there is none, and panics if there are more.
fn left_of(clause: &[u32], marks: &[u32], step: u32) -> Option<u32> {
    let mut left = None;
    for &literal in clause.iter().filter(|&&literal| marks[literal as usize] != step) {
        assert!(left.is_none_or(|other| other == literal), "more than one literal is left");
        left = Some(literal);
    }
    left
}
