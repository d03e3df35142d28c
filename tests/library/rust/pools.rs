//! Random pools, and the rules of document 01 on a pool, written once more.

pub struct Rng(pub u64);

impl Rng {
    pub fn next(&mut self) -> u64 {
        self.0 ^= self.0 << 13;
        self.0 ^= self.0 >> 7;
        self.0 ^= self.0 << 17;
        self.0
    }

    pub fn below(&mut self, n: u64) -> u64 {
        self.next() % n
    }

    pub fn one_of<T: Copy>(&mut self, list: &[T]) -> T {
        list[self.below(list.len() as u64) as usize]
    }

    pub fn wide(&mut self) -> u128 {
        u128::from(self.next()) << 64 | u128::from(self.next())
    }
}

// A node: kind, width, operands A B C, words 2 and 3.
#[derive(Clone, Copy, Debug)]
pub struct Node {
    pub kind: u64,
    pub width: u64,
    pub operands: [usize; 3],
    pub data: [u64; 2],
}

/// The words of a pool, with the sets of registers.
pub fn pool_words(nodes: &[Node]) -> Vec<u64> {
    let mut sets: Vec<u64> = vec![];
    let mut words = vec![];
    for node in nodes {
        let set = match node.kind {
            1 => 1 << node.data[0],
            _ => node.used().iter().fold(0, |all, &m| all | sets[m]),
        };
        sets.push(set);
        let [w0, w1, x, y] = node.words();
        words.extend([w0 | set << 32, w1, x, y]);
    }
    words
}

impl Node {
    /// But for the set of registers.
    pub fn words(&self) -> [u64; 4] {
        let [a, b, c] = self.operands.map(|m| m as u64);
        [self.kind | self.width << 16, a | b << 16 | c << 32, self.data[0], self.data[1]]
    }

    /// Node n of a pool.
    pub fn at(pool: &[u64], n: usize) -> Self {
        let [w0, w1, x, y] = [0, 1, 2, 3].map(|j| pool[4 * n + j]);
        Self { kind: w0 & 0xffff, width: w0 >> 16 & 0xffff, operands: [0, 16, 32].map(|s| (w1 >> s & 0xffff) as usize), data: [x, y] }
    }

    /// The operands that its kind has.
    pub fn used(&self) -> &[usize] {
        let many = match self.kind {
            1 | 2 => 0,
            15 => 3,
            16 | 18 | 19 => 1,
            _ => 2,
        };
        &self.operands[..many]
    }
}

// One more node for a valid pool of these nodes, or none if the chosen kind has no operands in it.
pub fn grow(r: &mut Rng, nodes: &[Node]) -> Option<Node> {
    let terms: Vec<usize> = (0..nodes.len()).filter(|&i| nodes[i].width != 0).collect();
    let conditions: Vec<usize> = (0..nodes.len()).filter(|&i| nodes[i].width == 0).collect();
    let kind = if terms.is_empty() { 1 + r.below(2) } else { 1 + r.below(19) };
    let made = |width, operands, data| Some(Node { kind, width, operands, data });
    match kind {
        1 => return made(128, [0; 3], [r.below(32), 0]),
        2 => {
            let bits = 1 + r.below(129);
            let mut v = (((r.next() as u128) << 64) | r.next() as u128) >> r.below(128);
            if bits < 128 {
                v &= (1 << bits) - 1;
            }
            return made(bits, [0; 3], [v as u64, (v >> 64) as u64]);
        }
        _ => {}
    }
    let a = r.one_of(&terms);
    let w = nodes[a].width;
    let same: Vec<usize> = terms.iter().copied().filter(|&i| nodes[i].width == w).collect();
    let b = r.one_of(&same);
    match kind {
        3..=11 => made(w, [a, b, 0], [0; 2]),
        12..=14 => made(0, [a, b, 0], [0; 2]),
        15 if conditions.is_empty() => None,
        15 => made(w, [r.one_of(&conditions), a, b], [0; 2]),
        16 => {
            let hi = r.below(w);
            let lo = r.below(hi + 1);
            made(hi - lo + 1, [a, 0, 0], [hi, lo])
        }
        17 => {
            let c = r.one_of(&terms);
            if w + nodes[c].width > 129 { None } else { made(w + nodes[c].width, [a, c, 0], [0; 2]) }
        }
        _ => made(w + r.below(130 - w), [a, 0, 0], [0; 2]),
    }
}

// Document 01's rules, section Pool.
fn keeps_rules(pool: &[u64], n: usize) -> bool {
    let [w0, w1, x, y] = [0, 1, 2, 3].map(|j| pool[4 * n + j]);
    let (kind, width, set) = (w0 & 0xffff, w0 >> 16 & 0xffff, w0 >> 32);
    let [a, b, c] = [w1 & 0xffff, w1 >> 16 & 0xffff, w1 >> 32];
    let of = |m: u64| if m < n as u64 { Some(pool[4 * m as usize] >> 16 & 0xffff) } else { None };
    let below = |m: u64| if m < n as u64 { pool[4 * m as usize] >> 32 } else { 0 };
    let term = |m: u64| of(m).is_some_and(|w| w != 0);
    let wide = (1..=129).contains(&width);
    let plain = x == 0 && y == 0;
    let named = match kind {
        1 if x < 32 => 1 << x,
        3..=14 | 17 => below(a) | below(b),
        15 => below(a) | below(b) | below(c),
        16 | 18 | 19 => below(a),
        _ => 0,
    };
    set == named && match kind {
        1 => width == 128 && w1 == 0 && x < 32 && y == 0,
        2 => wide && w1 == 0 && (width >= 128 || ((y as u128) << 64 | x as u128) >> width == 0),
        3..=11 => wide && plain && c == 0 && of(a) == Some(width) && of(b) == Some(width),
        12..=14 => width == 0 && plain && c == 0 && term(a) && of(b) == of(a),
        15 => wide && plain && of(a) == Some(0) && of(b) == Some(width) && of(c) == Some(width),
        16 => b == 0 && c == 0 && y <= x && of(a).is_some_and(|w| x < w) && width == x - y + 1,
        17 => wide && plain && c == 0 && term(a) && term(b) && of(a).unwrap() + of(b).unwrap() == width,
        18 | 19 => wide && plain && b == 0 && c == 0 && term(a) && of(a).unwrap() <= width,
        _ => false,
    }
}

pub fn valid(pool: &[u64], count: usize) -> bool {
    count <= (pool.len() / 4).min(65535) && (0..count).all(|n| keeps_rules(pool, n))
}
