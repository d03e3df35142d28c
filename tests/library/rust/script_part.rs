//! Scripts of pools in both forms, byte for byte, by a writer from document 02's S-1 and the header's words on lanes alone; and what
//! solvers answer to scripts.
use std::fmt::Write as _;
use std::io::Write as _;
use std::process::{Command, Stdio};

use crate::Sample;
use crate::arm;
use crate::blocks_part::{oracle_record, record};
use crate::forms;
use crate::judge::{RESERVE, Record};
use crate::native::{self, OLD, bytes, words};
use crate::pools::{Node, Rng, grow, pool_words, valid};

const FUNCTIONS: [&str; 12] = ["bvadd", "bvsub", "bvmul", "bvand", "bvor", "bvxor", "bvshl", "bvlshr", "bvashr", "=", "bvult", "bvslt"];

/// A Var is written as its register.
fn name(pool: &[u64], n: usize) -> String {
    let node = Node::at(pool, n);
    if node.kind == 1 { format!("r{}", node.data[0]) } else { format!("n{n}") }
}

fn binary(low: u64, high: u64, width: u64) -> String {
    let bit = |k: u64| match k {
        0..64 => low >> k & 1,
        64..128 => high >> (k - 64) & 1,
        _ => 0,
    };
    (0..width).rev().map(|k| if bit(k) == 1 { '1' } else { '0' }).collect()
}

fn term(pool: &[u64], n: usize) -> String {
    let node = Node::at(pool, n);
    let [x, y] = node.data;
    let names: Vec<String> = node.used().iter().map(|&m| name(pool, m)).collect();
    let more = || node.width - Node::at(pool, node.operands[0]).width;
    let function = match node.kind {
        2 => return format!("#b{}", binary(x, y, node.width)),
        3..=14 => FUNCTIONS[node.kind as usize - 3].to_string(),
        15 => "ite".to_string(),
        16 => format!("(_ extract {x} {y})"),
        17 => "concat".to_string(),
        18 => format!("(_ zero_extend {})", more()),
        _ => format!("(_ sign_extend {})", more()),
    };
    format!("({function} {})", names.join(" "))
}

/// The bits from hi down to lo, or all of them by S-1's form.
type Lane = Option<[u64; 2]>;

/// The script of a valid pool.
fn script(pool: &[u64], count: usize, nodes: [usize; 2], lane: Lane) -> String {
    let mut text = "(set-logic QF_BV)\n".to_string();
    for r in 0..32 {
        writeln!(text, "(declare-const r{r} (_ BitVec 128))").expect("a string");
    }
    for n in 0..count {
        let node = Node::at(pool, n);
        if node.kind != 1 {
            let sort = if node.width == 0 { "Bool".to_string() } else { format!("(_ BitVec {})", node.width) };
            let term = term(pool, n);
            match lane {
                None => writeln!(text, "(define-fun n{n} () {sort} {term})"),
                Some(_) => writeln!(text, "(declare-const n{n} {sort})\n(assert (= n{n} {term}))"),
            }
            .expect("a string");
        }
    }
    let [x, y] = nodes.map(|n| match lane {
        None => name(pool, n),
        Some([hi, lo]) => format!("((_ extract {hi} {lo}) {})", name(pool, n)),
    });
    writeln!(text, "(assert (distinct {x} {y}))\n(check-sat)").expect("a string");
    text
}

/// 1 or 5, or 0 if there is a script.
fn number(pool: &[u64], count: usize, nodes: [usize; 2], lane: Lane) -> u64 {
    let chosen = |n: usize| n < count && Node::at(pool, n).width == 128;
    let cut = lane.is_none_or(|[hi, lo]| lo <= hi && hi <= 127);
    match (valid(pool, count), nodes.into_iter().all(chosen) && cut) {
        (false, _) => 1,
        (true, false) => 5,
        (true, true) => 0,
    }
}

/// The script for a buffer of `room` bytes, or of as many as its length and `room` make: number, length and buffer are as document 02
/// says. Returns the number.
fn try_script(pool: &[u64], count: usize, nodes: [usize; 2], lane: Lane, room: isize) -> u64 {
    let refused = number(pool, count, nodes, lane);
    let want = if refused == 0 { script(pool, count, nodes, lane) } else { String::new() };
    assert_eq!(native::script_length(pool, count, nodes, lane), (refused, want.len()), "{nodes:?} {lane:?} {count} {pool:?}");
    let mut buffer = bytes(want.len().saturating_add_signed(room));
    let short = refused == 0 && buffer.items().len() < want.len();
    let number = if short { 9 } else { refused };
    let length = if number == 0 { want.len() } else { 0 };
    assert_eq!(native::write_script(pool, count, nodes, lane, &mut buffer), (number, length), "{nodes:?} {lane:?} {count} {pool:?}");
    if number == 0 {
        assert!(&buffer.items()[..length] == want.as_bytes(), "the script of {nodes:?} {lane:?} differs: {count} {pool:?}");
    }
    assert!(buffer.items()[length..].iter().all(|&x| x == OLD), "a byte past the script changed");
    number
}

/// The bits of a lane, mostly ones that there are.
fn lane(r: &mut Rng) -> [u64; 2] {
    let [x, y] = [(); 2].map(|()| r.below(128));
    match r.below(12) {
        0 => [x.min(y), x.max(y)],
        1 => [r.one_of(&[128, 129, 1000, 1 << 32, u64::MAX]), y],
        2 => [x, r.one_of(&[128, 1 << 32, u64::MAX])],
        3 => [127, 0],
        4..8 => [y | 7, y & !7],
        _ => [x.max(y), x.min(y)],
    }
}

#[derive(Default)]
struct Seen {
    numbers: [u64; 14],
    lanes: [u64; 14],
    kinds: [u64; 20],
    widest: u64,
    late_vars: u64,
}

/// Operands are among the last 400 nodes, so that the largest pool is made quickly.
fn random_pool(r: &mut Rng, count: usize) -> Vec<Node> {
    let mut nodes: Vec<Node> = vec![];
    while nodes.len() < count {
        // many pools begin as those of blocks do
        if nodes.len() < 32 && r.0 & 0x300 != 0 {
            nodes.push(Node { kind: 1, width: 128, operands: [0; 3], data: [nodes.len() as u64, 0] });
            continue;
        }
        let from = nodes.len().saturating_sub(400);
        let Some(mut node) = grow(r, &nodes[from..]) else { continue };
        let used = node.used().len();
        for m in &mut node.operands[..used] {
            *m += from;
        }
        nodes.push(node);
    }
    nodes
}

/// Two nodes, mostly of 128 bits.
fn choose(r: &mut Rng, nodes: &[Node]) -> [usize; 2] {
    let wide: Vec<usize> = (0..nodes.len()).filter(|&n| nodes[n].width == 128).collect();
    [(); 2].map(|()| match r.below(12) {
        0 => r.one_of(&[nodes.len(), nodes.len() + 1, 65535, usize::MAX]),
        1 => r.below(nodes.len() as u64) as usize,
        _ if wide.is_empty() => 0,
        _ => r.one_of(&wide),
    })
}

fn try_random(r: &mut Rng, seen: &mut Seen) {
    let most = r.one_of(&[4, 40, 80, 200]);
    let count = 1 + r.below(most) as usize;
    let nodes = random_pool(r, count);
    let chosen = choose(r, &nodes);
    let mut pool = pool_words(&nodes);
    pool.extend((0..r.below(9)).map(|k| k << 32));
    if r.below(8) == 0 {
        let at = r.below(4 * count as u64) as usize;
        pool[at] ^= 1 << r.below(64);
    }
    let room = r.one_of(&[0, 0, 1, 70, -1, -30, isize::MIN]);
    let by_lane = lane(r);
    seen.lanes[try_script(&pool, count, chosen, Some(by_lane), room) as usize] += 1;
    let number = try_script(&pool, count, chosen, None, room);
    seen.numbers[number as usize] += 1;
    if number == 0 {
        for (n, node) in nodes.iter().enumerate() {
            seen.kinds[node.kind as usize] += 1;
            seen.widest = seen.widest.max(node.width);
            seen.late_vars += u64::from(node.kind == 1 && n > 31);
        }
    }
}

/// A pool's words, and the results of the block.
fn lowered(records: &[Record]) -> (Vec<u64>, Vec<u64>) {
    let mut pool = words(&vec![0; 4 * (32 + RESERVE * records.len())]);
    let mut results = words(&[0; 34]);
    assert_eq!(native::lower_block(&mut pool, &records.concat(), &mut results), 0, "{records:?}");
    (pool.items().to_vec(), results.items().to_vec())
}

/// A block's registers can all be chosen.
fn try_block(r: &mut Rng, long: u64) -> usize {
    let records: Vec<Record> = (0..long).map(|_| record(r, 32)).collect();
    let (pool, results) = lowered(&records);
    let chosen = [(); 2].map(|()| results[r.below(32) as usize] as usize);
    for lane in [None, Some([127, 120])] {
        assert_eq!(try_script(&pool, results[32] as usize, chosen, lane, 0), 0);
    }
    results[32] as usize
}

/// Standard output and standard error of a program.
fn answer(program: &str, arguments: &[&str], input: &[u8]) -> Option<(String, String)> {
    let mut command = Command::new(program);
    command.args(arguments).stdin(Stdio::piped()).stdout(Stdio::piped()).stderr(Stdio::piped());
    let mut child = command.spawn().ok()?;
    let mut to = child.stdin.take().expect("its input");
    let bytes = input.to_vec();
    // a program that refuses may not read all
    let writer = std::thread::spawn(move || to.write_all(&bytes).is_ok());
    let output = child.wait_with_output().expect("its output");
    writer.join().expect("a thread");
    let text = |bytes| String::from_utf8(bytes).expect("text");
    Some((text(output.stdout), text(output.stderr)))
}

fn columns(records: &[Record]) -> String {
    records.iter().map(|record| record.iter().map(|x| format!("{x:4}")).collect::<String>() + "\n").collect()
}

/// The solvers, as strict as they can be; the time is for a question that one of them finds hard.
const SOLVERS: [(&str, &[&str]); 2] =
    [("z3", &["-in", "-t:2000", "smtlib2_compliant=true"]), ("cvc5", &["--lang=smt2", "--strict-parsing", "--tlimit-per=2000", "-"])];

/// What a solver says to a script. A strict z3 says `success` to each command that it takes.
fn said(solver: (&str, &[&str]), script: &str) -> Option<String> {
    let (program, options) = solver;
    let (out, errors) = answer(program, options, script.as_bytes())?;
    let lines: Vec<&str> = out.lines().filter(|line| *line != "success").collect();
    let [line] = lines[..] else { panic!("{program} says {out}{errors} to {script}") };
    assert!(errors.is_empty(), "{program} says {out}{errors} to {script}");
    Some(line.to_string())
}

/// What a solver says to the script as it is, where it may not know; and to the script with a start, where it has to.
fn ask(solver: (&str, &[&str]), script: &str, start: &[u128; 32], differ: bool) -> Option<()> {
    let open = said(solver, script)?;
    assert!(["sat", "unsat", "unknown", "timeout"].contains(&open.as_str()), "{} says {open} to {script}", solver.0);
    let known: String = start.iter().enumerate().map(|(r, v)| format!("(assert (= r{r} #b{v:0128b}))\n")).collect();
    let question = script.replace("(check-sat)\n", &format!("{known}(check-sat)\n"));
    let closed = said(solver, &question)?;
    assert_eq!(closed, if differ { "sat" } else { "unsat" }, "{} to {question}", solver.0);
    Some(())
}

/// Two registers after a block of one or two records: the solvers say that they differ, and that a lane does, exactly where they do after the
/// Arm run.
fn try_solvers(r: &mut Rng, count: u64) {
    let mut answers = [0; 2];
    let mut missing = [false; 2];
    for _ in 0..count {
        let records: Vec<Record> = (0..1 + r.below(2)).map(|_| record(r, 4)).collect();
        let (pool, results) = lowered(&records);
        let registers = [(); 2].map(|()| r.below(4) as usize);
        let nodes = registers.map(|register| results[register] as usize);
        let count = results[32] as usize;
        let byte = 8 * r.below(16);
        let scripts = [None, Some([byte + 7, byte])].map(|lane| {
            assert_eq!(try_script(&pool, count, nodes, lane, 0), 0);
            let mut buffer = bytes(native::script_length(&pool, count, nodes, lane).1);
            native::write_script(&pool, count, nodes, lane, &mut buffer);
            String::from_utf8(buffer.items().to_vec()).expect("text")
        });
        // one number in all registers, now and then: so some registers are equal
        let one = r.wide() & r.one_of(&[0, 1, u128::MAX]);
        let start: [u128; 32] = if r.below(2) == 0 { [one; 32] } else { std::array::from_fn(|_| r.wide()) };
        let mut after = start;
        let block: Vec<forms::Record> = records.iter().map(oracle_record).collect();
        arm::run(&block, &mut after);
        let [x, y] = registers.map(|register| after[register]);
        for (script, differ) in scripts.iter().zip([x != y, (x >> byte) as u8 != (y >> byte) as u8]) {
            answers[usize::from(differ)] += 1;
            for (solver, missing) in SOLVERS.into_iter().zip(&mut missing) {
                *missing |= ask(solver, script, &start, differ).is_none();
            }
        }
    }
    assert!(answers.iter().all(|&n| n > 0), "scripts: registers equal and different {answers:?} times");
    for ((solver, _), missing) in SOLVERS.into_iter().zip(missing) {
        if missing {
            println!("skipped: scripts for {solver} (no {solver})");
        } else {
            println!("scripts: {solver} takes {count} of each form as they are, and says at a start what the Arm run says ({answers:?} equal, different)");
        }
    }
}

pub fn main(count: u64) {
    let mut r = Rng(0x9b05_688c_2b3e_6c1f);
    let mut seen = Seen::default();
    for _ in 0..count {
        try_random(&mut r, &mut seen);
    }
    for (number, &times) in seen.numbers.iter().enumerate().chain(seen.lanes.iter().enumerate()) {
        assert_eq!(times > 0, [0, 1, 5, 9].contains(&number), "scripts: {number} was given {times} times");
    }
    assert!(seen.kinds[1..].iter().all(|&n| n > 0) && seen.widest == 129 && seen.late_vars > 0, "scripts: not every kind of node came up");
    println!("scripts: {count} random pools, answers by number {:?}, by lanes {:?}, all as the judge's; of each kind so many nodes {:?}", seen.numbers, seen.lanes, &seen.kinds[1..]);
    let blocks = count / 100 + 8;
    let nodes: usize = (0..blocks).map(|turn| try_block(&mut r, turn * 7 % 86)).sum();
    println!("scripts: {blocks} pools of blocks of 0 to 85 records, {nodes} nodes");
    let largest = random_pool(&mut r, 65_535);
    let wide: Vec<usize> = (0..largest.len()).filter(|&n| largest[n].width == 128).collect();
    let chosen = [r.one_of(&wide), *wide.last().expect("a wide node")];
    for lane in [None, Some([127, 120])] {
        assert_eq!(try_script(&pool_words(&largest), 65_535, chosen, lane, 0), 0);
    }
    println!("scripts: the pool of 65,535 nodes");
    try_solvers(&mut r, count / 500 + 12);
}

/// The hash of a script in the stored sample: FNV-1a of 64 bits.
fn hash(text: &[u8]) -> u64 {
    text.iter().fold(0xcbf2_9ce4_8422_2325, |h, &x| (h ^ u64::from(x)).wrapping_mul(0x0100_0000_01b3))
}

/// The sample for tests/library/stored/scripts: pools, chosen nodes and rooms; the number, the length and the script's hash.
pub fn stored(count: u64) -> Sample {
    sample(Rng(0x1f83_d9ab_fb41_bd6b), count, |_| None)
}

/// The sample for tests/library/stored/lane_scripts, with the bits after the nodes.
pub fn stored_lanes(count: u64) -> Sample {
    sample(Rng(0x5be0_cd19_137e_2179), count, |r| Some(lane(r)))
}

fn sample(mut r: Rng, count: u64, lane: fn(&mut Rng) -> Lane) -> Sample {
    let (mut input, mut answers, mut seen) = (String::new(), String::new(), [0; 14]);
    for _ in 0..count {
        let many = 1 + r.below(60) as usize;
        let nodes = random_pool(&mut r, many);
        let [a, b] = choose(&mut r, &nodes);
        let lane = lane(&mut r);
        let mut pool = pool_words(&nodes);
        if r.below(8) == 0 {
            let at = r.below(pool.len() as u64) as usize;
            pool[at] ^= 1 << r.below(64);
        }
        let refused = number(&pool, many, [a, b], lane);
        let text = if refused == 0 { script(&pool, many, [a, b], lane) } else { String::new() };
        let room = text.len().saturating_add_signed(r.one_of(&[0, 9, -1, isize::MIN]));
        let number = if refused == 0 && room < text.len() { 9 } else { refused };
        let (length, hash) = if number == 0 { (text.len(), hash(text.as_bytes())) } else { (0, hash(b"")) };
        let body: Vec<String> = pool.iter().map(|w| format!("{w:x}")).collect();
        let bits = lane.map_or(String::new(), |[hi, lo]| format!("{hi} {lo} "));
        input += &format!("{} {many} {a} {b} {bits}{room} {}\n", pool.len(), body.join(" "));
        answers += &format!("{number} {length} {} {hash:x}\n", text.len());
        seen[number as usize] += 1;
    }
    assert!([0, 1, 5, 9].iter().all(|&k| seen[k] > 0), "the stored scripts: numbers {seen:?}");
    Sample { input, answers }
}
