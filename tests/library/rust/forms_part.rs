//! Every legal form on many sources: the term against the tree of the Rust's own lane functions on the same sources.
use crate::dag::{Dag, fnv};
use crate::expr::Expr;
use crate::forms::{self, Record};
use crate::judge::{NONE, RESERVE, grown, wanted};
use crate::lift::aarch64::neon::lower::drive;
use crate::native::{self, Words, bytes};
use crate::pools::{Node, Rng, pool_words};
use crate::run;
use crate::texts_part::tree;

/// A pool and the Rust's expression of each of its nodes.
pub struct Sources {
    pub nodes: Vec<Node>,
    pub trees: Vec<Expr>,
}

impl Sources {
    fn add(&mut self, kind: u64, width: u64, operands: &[usize], data: [u64; 2]) -> usize {
        let mut three = [0; 3];
        three[..operands.len()].copy_from_slice(operands);
        let node = Node { kind, width, operands: three, data };
        self.trees.push(tree(&self.trees, &node));
        self.nodes.push(node);
        self.nodes.len() - 1
    }

    fn cut(&mut self, of: usize, hi: u64, lo: u64) -> usize {
        self.add(16, hi - lo + 1, &[of], [hi, lo])
    }

    fn two(&mut self, kind: u64, a: usize, b: usize) -> usize {
        let width = match kind {
            12..=14 => 0,
            17 => self.nodes[a].width + self.nodes[b].width,
            _ => self.nodes[a].width,
        };
        self.add(kind, width, &[a, b], [0, 0])
    }

    /// Registers; their cuts, cuts of cuts and concats; operands of 129 bits and cuts of these; constants, shifts, choices.
    pub fn new() -> Self {
        let mut s = Self { nodes: vec![], trees: vec![] };
        for r in 0..32 {
            s.add(1, 128, &[], [r, 0]);
        }
        for r in 0..3 {
            s.cut(r, 63, 0);
        }
        for r in [3, 4] {
            let high = s.cut(r, 127, 64);
            let middle = s.cut(r, 70, 7);
            let whole = s.cut(r, 127, 0);
            let from_0 = s.cut(r, 99, 0);
            let from_9 = s.cut(r, 120, 9);
            for of in [from_0, from_9, whole, r + 1] {
                let a = s.cut(of, 63, 0);
                s.cut(of, 80, 17);
                s.cut(a, 63, 0);
            }
            s.cut(whole, 127, 0);
            let zero = s.add(18, 129, &[r], [0, 0]);
            let sign = s.add(19, 129, &[r], [0, 0]);
            let sum = s.two(3, zero, sign);
            for of in [zero, sum] {
                let low = s.cut(of, 127, 0);
                s.cut(of, 128, 1);
                s.cut(of, 63, 0);
                s.cut(of, 128, 65);
                s.cut(low, 63, 0);
                s.cut(low, 127, 0);
            }
            let byte = s.cut(r, 7, 0);
            let [low, word] = [s.cut(r, 31, 0), s.cut(r, 95, 64)];
            let joined = s.two(17, low, word);
            let full = s.two(17, high, joined);
            s.two(5, full, r);
            s.two(8, joined, middle);
            for (kind, of, width) in [(18, byte, 64), (19, byte, 64), (18, joined, 128), (19, high, 128)] {
                s.add(kind, width, &[of], [0, 0]);
            }
            let k64 = s.add(2, 64, &[], [0x8000_0000_7fff_ff80, 0]);
            let k128 = s.add(2, 128, &[], [1, 1 << 63]);
            for (kind, a, b) in [(10, middle, k64), (11, high, k64), (9, r, k128), (11, full, k128)] {
                s.two(kind, a, b);
            }
            let smaller = s.two(13, high, middle);
            s.add(15, 64, &[smaller, joined, k64], [0, 0]);
            let signed = s.two(14, full, r);
            s.add(15, 128, &[signed, r, k128], [0, 0]);
        }
        s
    }

    /// Cuts of cuts, of every inner lo: of 64 bits at the lower and the upper end of a term of 129 bits from which lo bits are cut, once and
    /// twice; of 128 bits if lo is 0 or 1.
    fn nested() -> Self {
        let mut s = Self { nodes: vec![], trees: vec![] };
        for r in 0..32 {
            s.add(1, 128, &[], [r, 0]);
        }
        for lo in 0..=65 {
            let sum = s.add(18 + lo % 2, 129, &[lo as usize % 32], [0, 0]);
            let once = s.cut(sum, 128, lo);
            let width = 129 - lo;
            s.cut(once, 63, 0);
            s.cut(once, width - 1, width - 64);
            let twice = s.cut(once, width - 1, 0);
            s.cut(twice, width - 1, width - 64);
            if width >= 128 {
                s.cut(once, 127, 0);
                s.cut(twice, width - 1, width - 128);
            }
        }
        s
    }

    /// The nodes of a width.
    fn of_width(&self, width: u64) -> Vec<usize> {
        (0..self.nodes.len()).filter(|&n| self.nodes[n].width == width).collect()
    }

    /// The pool's words, with room for an instruction, and the structural hash of each node.
    fn pool(&self, r: &mut Rng) -> (Vec<u64>, Vec<u64>) {
        let mut base = pool_words(&self.nodes);
        base.extend((0..4 * RESERVE).map(|_| r.next()));
        let mut hashes = vec![];
        for node in &self.nodes {
            hashes.push(hash(node, &hashes));
        }
        (base, hashes)
    }
}

/// A node's structural hash, as the oracle's README gives it.
pub fn hash(node: &Node, hashes: &[u64]) -> u64 {
    let mut all = vec![node.kind as u8];
    all.extend((node.width as u16).to_le_bytes());
    for word in node.data {
        all.extend(word.to_le_bytes());
    }
    for &m in node.used() {
        all.extend(hashes[m].to_le_bytes());
    }
    fnv(&all)
}

/// The sources of set number `set`: plain ones first, then each source of its width in turn, then any.
fn choose(r: &mut Rng, set: u64, widths: [Option<u64>; 3], lists: &[Vec<usize>; 2]) -> [usize; 3] {
    std::array::from_fn(|k| {
        let Some(width) = widths[k] else { return NONE };
        let list = &lists[(width == 128) as usize];
        let turn = set as usize - usize::from(set > 0);
        match set {
            // nodes 32 to 34 are the low halves of v0 to v2
            0 => if width == 128 { k } else { 32 + k },
            _ if turn < list.len() => list[(turn + k * (turn / 2 + 1)) % list.len()],
            _ => r.one_of(list),
        }
    })
}

fn compare(s: &Sources, base: &[u64], base_hashes: &[u64], pool: &mut Words, form: &Record, nodes: [usize; 3], display: bool) -> usize {
    let count = s.nodes.len();
    let case = [form.op, form.arr, form.imm].map(u64::from);
    pool.set(base);
    let (number, node, after) = native::lower_instruction(pool, count, case, nodes);
    assert_eq!(number, 0, "{form:?} on {nodes:?}");
    grown(base, count, pool.items(), node, after, forms::view(form.arr).into());
    let mut hashes = base_hashes.to_vec();
    for n in count..after {
        hashes.push(hash(&Node::at(pool.items(), n), &hashes));
    }
    let [d, n, m] = nodes.map(|n| s.trees.get(n).cloned());
    let want = drive::tree(form, d, n.expect("a first source"), m);
    let mut dag = Dag::default();
    let map = run::start(&mut dag);
    let root = dag.intern(&want, &map);
    assert_eq!(hashes[node], dag.hashes[root as usize], "{form:?} on {nodes:?}");
    if display {
        let text = want.to_string();
        let (number, length) = native::text_length(pool.items(), after, node, u32::MAX);
        assert_eq!((number, length), (0, text.len() as u64));
        let mut buffer = bytes(length as usize + 3);
        assert_eq!(native::write_text(pool.items(), after, node, &mut buffer), (0, text.len()));
        assert_eq!(&buffer.items()[..text.len()], text.as_bytes());
    }
    after - count
}

/// Every operation and arrangement, at its last immediate, on each nested cut in turn.
fn nested(all: &[Record]) -> usize {
    let s = Sources::nested();
    let mut r = Rng(0x3c6e_f372_fe94_f82b);
    let (base, hashes) = s.pool(&mut r);
    let mut pool = native::words(&base);
    let registers = 32;
    let lists = [64, 128].map(|width| s.of_width(width).into_iter().filter(|&n| n >= registers).collect::<Vec<_>>());
    let mut compared = 0;
    for (k, form) in all.iter().enumerate() {
        if all.get(k + 1).is_some_and(|next| (next.op, next.arr) == (form.op, form.arr)) {
            continue;
        }
        let widths = wanted(form.op.into(), form.arr.into());
        let turns = widths.iter().flatten().map(|&width| lists[(width == 128) as usize].len()).max().expect("a source");
        for turn in 0..turns {
            let nodes = std::array::from_fn(|k| widths[k].map_or(NONE, |width| {
                let list = &lists[(width == 128) as usize];
                list[(turn * (k + 1) + k) % list.len()]
            }));
            compare(&s, &base, &hashes, &mut pool, form, nodes, turn % 64 == 0);
            compared += 1;
        }
    }
    compared
}

pub fn main(sets: u64) {
    let s = Sources::new();
    let mut r = Rng(0x1234_5678_9abc_def1);
    let (base, hashes) = s.pool(&mut r);
    let lists = [s.of_width(64), s.of_width(128)];
    let mut pool = native::words(&base);
    let all = forms::all();
    assert_eq!(all.len(), 2966);
    let mut most = 0;
    for form in &all {
        for set in 0..sets {
            let nodes = choose(&mut r, set, wanted(form.op.into(), form.arr.into()), &lists);
            most = most.max(compare(&s, &base, &hashes, &mut pool, form, nodes, set % 8 == 0));
        }
    }
    for operation in (0..70).chain([1 << 32, u64::MAX]) {
        for arrangement in (0..9).chain([1 << 32, u64::MAX]) {
            assert_eq!(native::form_code(operation, arrangement), crate::judge::form_code(operation, arrangement), "{operation} {arrangement}");
        }
    }
    let cuts = nested(&all);
    println!(
        "forms: {cuts} terms on cuts of cuts of every inner lo equal the Rust's\n\
         forms: {} forms on {sets} sets of sources, of {} terms of 64 bits and {} of 128: {} terms equal the Rust's; at most {most} nodes added",
        all.len(), lists[0].len(), lists[1].len(), all.len() as u64 * sets
    );
}
