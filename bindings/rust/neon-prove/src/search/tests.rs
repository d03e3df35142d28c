//! Searches on small graphs whose truth is known, by the reference checker.
use super::reference::Builder;
use super::{FIRST_GATE, Found, Limits, Literal, search};

fn limits() -> Limits<'static> {
    Limits { conflicts: 100_000, visits: 1 << 40, words: 1 << 28, stop: &|| false }
}

struct Random(u64);

impl Random {
    fn below(&mut self, bound: usize) -> usize {
        self.0 = self.0.wrapping_mul(6_364_136_223_846_793_005).wrapping_add(1_442_695_040_888_963_407);
        (self.0 >> 33) as usize % bound
    }
}

fn inputs(first: u32, width: u32) -> Vec<Literal> {
    (first..first + width).map(Builder::input).collect()
}

fn refutation(builder: &Builder, goal: Literal) -> Vec<u32> {
    let (Found::Refutation(words, steps), _) = search(&builder.0, goal, &limits(), &mut |_| {}) else { panic!("no refutation") };
    assert!(steps > 0 && builder.accepts(goal, &words));
    words
}

/// A literal of the constant, an input or a gate.
fn any(r: &mut Random, builder: &Builder, inputs: u32) -> Literal {
    let at = r.below(inputs as usize + builder.0.len() + 1) as u32;
    let v = if at > inputs { FIRST_GATE + at - inputs - 1 } else { at };
    2 * v + r.below(2) as u32
}

#[test]
fn random_graphs() {
    let mut r = Random(41);
    let (mut refuted, mut met) = (0, 0);
    for _ in 0..3000 {
        let mut builder = Builder::default();
        for _ in 0..1 + r.below(40) {
            let (a, b) = (any(&mut r, &builder, 6), any(&mut r, &builder, 6));
            builder.and(a, b);
        }
        let goal = 2 * (FIRST_GATE + builder.0.len() as u32 - 1) + r.below(2) as u32;
        let truth = (0..64).any(|start| builder.is_true(goal, start));
        match search(&builder.0, goal, &limits(), &mut |_| {}).0 {
            Found::Refutation(words, _) => {
                assert!(!truth && builder.accepts(goal, &words));
                refuted += 1;
            }
            Found::Start(inputs) => {
                assert!(builder.is_true(goal, inputs.iter().map(|v| 1 << (v - 1)).sum()));
                met += 1;
            }
            Found::Nothing(why) => panic!("{why}"),
        }
    }
    assert!(refuted > 300 && met > 300, "{refuted} {met}");
}

#[test]
fn sums_and_products() {
    let mut builder = Builder::default();
    let (a, b) = (inputs(0, 8), inputs(8, 8));
    let sum = builder.sum(&a, &b, 0);
    let not_b: Vec<Literal> = b.iter().map(|bit| bit ^ 1).collect();
    let back = builder.sum(&sum, &not_b, 1);
    let goal = builder.differ(&back, &a);
    refutation(&builder, goal);
    let (product, exchanged) = (builder.product(&a[..5], &b[..5]), builder.product(&b[..5], &a[..5]));
    let goal = builder.differ(&product, &exchanged);
    refutation(&builder, goal);
    let wrong = builder.differ(&sum, &a);
    let (Found::Start(start), _) = search(&builder.0, wrong, &limits(), &mut |_| {}) else { panic!("no start") };
    assert!(builder.is_true(wrong, start.iter().map(|v| 1 << (v - 1)).sum()));
}

#[test]
fn limits_end_a_search() {
    let mut builder = Builder::default();
    let (a, b) = (inputs(0, 12), inputs(12, 12));
    let (product, exchanged) = (builder.product(&a, &b), builder.product(&b, &a));
    let goal = builder.differ(&product, &exchanged);
    for (limits, why) in [
        (Limits { conflicts: 100, ..limits() }, "conflicts"),
        (Limits { visits: 1000, ..limits() }, "gates"),
        (Limits { words: 100, ..limits() }, "memory"),
        (Limits { stop: &|| true, ..limits() }, "time"),
    ] {
        let (found, _) = search(&builder.0, goal, &limits, &mut |_| {});
        assert!(matches!(found, Found::Nothing(reason) if reason == why), "{why}");
    }
}

/// A prover that lies: words of a refutation changed, cut off, or those of another question.
#[test]
fn damaged_refutations() {
    let mut builder = Builder::default();
    let (a, b) = (inputs(0, 4), inputs(4, 4));
    let (product, exchanged) = (builder.product(&a, &b), builder.product(&b, &a));
    let goal = builder.differ(&product, &exchanged);
    let good = refutation(&builder, goal);
    let mut r = Random(7);
    let (mut accepted, mut refused) = (0, 0);
    for _ in 0..5000 {
        let mut words = good.clone();
        for _ in 0..1 + r.below(3) {
            let (at, other) = (r.below(words.len()), r.below(words.len()));
            words[at] = [words[at] ^ 1, words[other], words[at].wrapping_add(4), r.below(40_000) as u32][r.below(4)];
        }
        words.truncate(if r.below(4) == 0 { r.below(words.len()) } else { words.len() });
        let asked = if r.below(2) == 0 { goal } else { product[r.below(4)] ^ r.below(2) as u32 };
        if builder.accepts(asked, &words) {
            assert!((0..256).all(|start| !builder.is_true(asked, start)));
            accepted += 1;
        } else {
            refused += 1;
        }
    }
    assert!(accepted > 0 && refused > 2000, "{accepted} {refused}");
}
