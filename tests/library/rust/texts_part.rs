//! Random pools: the text of every node against `Display` of the Rust's own expr.rs, and texts of great depth and length.
use crate::expr::Expr;
use crate::native::{OLD, bytes, pool_check, text_length, write_text};
use crate::pools::{Node, Rng, grow, pool_words};

/// The Rust's expression of a node, over those of the nodes before it.
pub fn tree(e: &[Expr], n: &Node) -> Expr {
    let [a, b, c] = n.operands.map(|m| e.get(m).cloned());
    let w = n.width as u16;
    let (a, b) = match n.kind {
        1 => return Expr::var(format!("v{}", n.data[0]), 128),
        2 => return Expr::konst(n.data[0] as u128 | (n.data[1] as u128) << 64, w),
        _ => (a.unwrap(), b.unwrap()),
    };
    match n.kind {
        3 => Expr::add(a, b),
        4 => Expr::sub(a, b),
        5 => Expr::mul(a, b),
        6 => Expr::bv_and(a, b),
        7 => Expr::bv_or(a, b),
        8 => Expr::bv_xor(a, b),
        9 => Expr::shl(a, b),
        10 => Expr::lshr(a, b),
        11 => Expr::ashr(a, b),
        12 => Expr::eq(a, b),
        13 => Expr::ult(a, b),
        14 => Expr::slt(a, b),
        15 => Expr::Ite { cond: Box::new(a), then_expr: Box::new(b), else_expr: Box::new(c.unwrap()) },
        16 => Expr::Extract { src: Box::new(a), hi: n.data[0] as u16, lo: n.data[1] as u16 },
        17 => Expr::concat(a, b),
        18 => Expr::zero_ext(a, w),
        _ => Expr::sign_ext(a, w),
    }
}

// A refusal: its number, length 0, and no byte written.
fn refused(pool: &[u64], count: usize, node: usize, size: usize, number: u64) {
    let mut buffer = bytes(size);
    assert_eq!(write_text(pool, count, node, &mut buffer), (number, 0));
    assert!(buffer.items().iter().all(|&x| x == OLD), "a refusal wrote");
}

fn written(pool: &[u64], count: usize, node: usize, size: usize, want: &str) {
    let mut buffer = bytes(size);
    assert_eq!(write_text(pool, count, node, &mut buffer), (0, want.len()));
    assert_eq!(&buffer.items()[..want.len()], want.as_bytes());
    assert!(buffer.items()[want.len()..].iter().all(|&x| x == OLD), "a byte past the text changed");
}

fn example() {
    let want = "concat((v1[127:64] >>u 0x1:64), (v1[63:0] >>u 0x1:64))";
    let cell = |kind, width, operands, data| Node { kind, width, operands, data };
    let nodes = [
        cell(1, 128, [0; 3], [1, 0]),
        cell(16, 64, [0, 0, 0], [127, 64]),
        cell(2, 64, [0; 3], [1, 0]),
        cell(10, 64, [1, 2, 0], [0; 2]),
        cell(16, 64, [0, 0, 0], [63, 0]),
        cell(10, 64, [4, 2, 0], [0; 2]),
        cell(17, 128, [3, 5, 0], [0; 2]),
    ];
    let pool = pool_words(&nodes);
    assert_eq!(want.len(), 54);
    written(&pool, 7, 6, 54, want);
    refused(&pool, 7, 6, 53, 9);
}

// Chains of cuts of five characters each, the deepest that a buffer of 140,000 bytes takes, on a thread of 2 MB; and how
// long it takes to refuse a term of 2^65,534 characters and more, and to ask for its length.
fn two_megabytes() {
    let mut cuts: Vec<u64> = vec![1 | 128 << 16 | 1 << 32, 0, 0, 0];
    let mut sums = cuts.clone();
    for n in 0..65534 {
        cuts.extend([16 | 1 << 16 | 1 << 32, n, 0, 0]);
        sums.extend([3 | 128 << 16 | 1 << 32, n | n << 16, 0, 0]);
    }
    written(&cuts, 65535, 27999, 140_000, &("v0".to_string() + &"[0:0]".repeat(27999)));
    refused(&cuts, 65535, 65534, 140_000, 9);
    let start = std::time::Instant::now();
    refused(&sums, 65535, 65534, 140_000, 9);
    let milliseconds = start.elapsed().as_secs_f64() * 1000.0;
    assert!(milliseconds < 100.0, "{milliseconds} ms");
    println!("texts: one of 2^65,534 characters and more is refused in {milliseconds:.2} ms");
    doubled(&sums);
}

// Lengths of sums of the node before with itself: node n has 7 × 2^n - 5 characters, past the highest ceiling from node 30 on.
fn doubled(sums: &[u64]) {
    for n in [0, 1, 5, 17, 18, 19, 28, 29, 30, 31, 1000, 65534] {
        let length = if n < 60 { (7u64 << n) - 5 } else { u64::MAX };
        let near = length.min(u32::MAX as u64) as u32;
        for ceiling in [0, near - 1, near, u32::MAX] {
            assert_eq!(text_length(sums, 65535, n, ceiling), (0, length.min(ceiling as u64 + 1)), "node {n}, ceiling {ceiling}");
        }
    }
    let start = std::time::Instant::now();
    assert_eq!(text_length(sums, 65535, 65534, u32::MAX), (0, 1 << 32));
    let milliseconds = start.elapsed().as_secs_f64() * 1000.0;
    assert!(milliseconds < 100.0, "{milliseconds} ms");
    println!("texts: the length of 2^65,534 characters and more, up to 2^32 - 1, takes {milliseconds:.2} ms");
}

pub fn main(pools: u64) {
    example();
    std::thread::Builder::new().stack_size(2 << 20).spawn(two_megabytes).unwrap().join().unwrap();
    let mut r = Rng(0x9e3779b97f4a7c15);
    let (mut texts, mut longest) = (0u64, 0);
    for _ in 0..pools {
        let mut nodes: Vec<Node> = vec![];
        let mut e: Vec<Expr> = vec![];
        let count = 2 + r.below(24) as usize;
        while e.len() < count {
            let Some(n) = grow(&mut r, &nodes) else { continue };
            let t = tree(&e, &n);
            if t.to_string().len() <= 20000 {
                nodes.push(n);
                e.push(t);
            }
        }
        let mut pool = pool_words(&nodes);
        // words past the count, which no one reads
        pool.extend((0..r.below(9)).map(|_| r.next()).collect::<Vec<_>>());
        assert!(pool_check(&pool, count));
        for (n, t) in e.iter().enumerate() {
            let want = t.to_string();
            let len = want.len();
            written(&pool, count, n, len, &want);
            written(&pool, count, n, len + 9, &want);
            refused(&pool, count, n, len - 1, 9);
            for ceiling in [0, len / 2, len - 1, len, u32::MAX as usize] {
                assert_eq!(text_length(&pool, count, n, ceiling as u32), (0, len.min(ceiling + 1) as u64));
            }
            longest = longest.max(len);
            texts += 1;
        }
        for node in [count, count + 1, 65535, usize::MAX] {
            refused(&pool, count, node, 40, 5);
            assert_eq!(text_length(&pool, count, node, 40), (5, 0));
        }
        assert_eq!(text_length(&pool, pool.len() / 4 + 1, 0, 40), (1, 0));
        refused(&pool, pool.len() / 4 + 1, 0, 40, 1);
        refused(&pool, usize::MAX, usize::MAX, 40, 1);
    }
    // more than 65,535 places: node 65,535 has none
    let many: Vec<u64> = (0..65540).flat_map(|_| [1 | 128 << 16 | 1 << 37, 0, 5, 0]).collect();
    assert!(pool_check(&many, 65535) && !pool_check(&many, 65536) && !pool_check(&many[..7], 2) && pool_check(&many[..7], 1));
    println!("texts: {texts} texts of the nodes of {pools} random pools equal the Rust's, the longest of {longest} bytes");
}
