//! Refutations that another prover found: CaDiCaL's proofs of the lanes that pairs of equal routines leave open, with hints by unit propagation, are
//! accepted. CaDiCaL and the hints are not believed.
use std::io::Write;
use std::process::{Command, Stdio};

use crate::gates::{INPUTS, clause, cone, refused_step, write_step};
use crate::gates_part::{Side, ask};
use crate::judge::Record;
use crate::native::{self, Memory, words};

const PAIRS: &str = "tests/programs/prove_pairs.txt";

/// Conflicts after which CaDiCaL gives up on a lane.
const CONFLICTS: &str = "2000";

/// Clauses over variables 1, 2 and so on, a literal being twice a variable, plus 1 if it is negated.
struct Clauses {
    all: Vec<Vec<u32>>,
    /// What cites each.
    hints: Vec<u32>,
    /// The clauses that have a literal.
    with: Vec<Vec<usize>>,
    units: Vec<usize>,
    /// The graph's variable of a variable.
    variables: Vec<usize>,
}

impl Clauses {
    /// The gates that a literal depends on, and the assumption that it is true.
    fn of(graph: &[u64], literal: u32) -> Self {
        let (gates, inputs) = cone(graph, literal);
        let variables: Vec<usize> = [0].into_iter().chain(inputs).chain(gates.iter().map(|gate| INPUTS + gate)).collect();
        let mut numbers = vec![0; INPUTS + graph.len()];
        variables.iter().enumerate().for_each(|(number, &variable)| numbers[variable] = number as u32);
        let named = |literal: u32| 2 * numbers[literal as usize / 2] + literal % 2;
        let mut clauses = Self { all: vec![], hints: vec![], with: vec![vec![]; 2 * variables.len()], units: vec![], variables };
        clauses.add(vec![named(literal)], 3);
        for gate in gates {
            for part in 0..3 {
                clauses.add(clause(graph, gate, part).into_iter().map(named).collect(), 4 * gate as u32 + part);
            }
        }
        clauses
    }

    fn add(&mut self, clause: Vec<u32>, hint: u32) {
        let number = self.all.len();
        clause.iter().for_each(|&literal| self.with[literal as usize].push(number));
        if clause.len() == 1 {
            self.units.push(number);
        }
        self.all.push(clause);
        self.hints.push(hint);
    }

    fn dimacs(&self) -> String {
        let signed = |literal: &u32| format!("{}{} ", if literal % 2 == 1 { "-" } else { "" }, literal / 2);
        let lines: String = self.all.iter().map(|clause| clause.iter().map(signed).collect::<String>() + "0\n").collect();
        format!("p cnf {} {}\n{lines}", self.variables.len() - 1, self.all.len())
    }

    /// The hints of a clause that follows by unit propagation, in order.
    fn follow(&self, goal: &[u32]) -> Option<Vec<u32>> {
        let mut propagation = Propagation { clauses: self, reasons: vec![None; self.with.len()], trail: vec![] };
        for &literal in goal {
            propagation.set_false(literal, usize::MAX);
        }
        let by_units = self.units.iter().find_map(|&unit| propagation.look(unit));
        let conflict = by_units.or_else(|| propagation.run())?;
        Some(propagation.explain(conflict).into_iter().map(|number| self.hints[number]).collect())
    }
}

struct Propagation<'a> {
    clauses: &'a Clauses,
    /// By literal: the clause that made it false.
    reasons: Vec<Option<usize>>,
    /// The false literals, in order.
    trail: Vec<u32>,
}

impl Propagation<'_> {
    fn set_false(&mut self, literal: u32, reason: usize) {
        if self.reasons[literal as usize].is_none() {
            self.reasons[literal as usize] = Some(reason);
            self.trail.push(literal);
        }
    }

    /// Makes the only literal left true; the clause if none is left.
    fn look(&mut self, number: usize) -> Option<usize> {
        let clauses = self.clauses;
        let mut left = clauses.all[number].iter().filter(|&&literal| self.reasons[literal as usize].is_none());
        match (left.next(), left.next()) {
            (None, _) => return Some(number),
            (Some(&literal), None) => self.set_false(literal ^ 1, number),
            _ => {}
        }
        None
    }

    /// The clause of which all literals are false.
    fn run(&mut self) -> Option<usize> {
        let mut at = 0;
        while let Some(&literal) = self.trail.get(at) {
            for &number in &self.clauses.with[literal as usize] {
                if let Some(conflict) = self.look(number) {
                    return Some(conflict);
                }
            }
            at += 1;
        }
        None
    }

    /// The clauses that the conflict needs, in the order of the trail, and itself.
    fn explain(&self, conflict: usize) -> Vec<usize> {
        let mut needed = vec![false; self.reasons.len()];
        let mut chain = vec![conflict];
        let need = |needed: &mut Vec<bool>, number: usize| self.clauses.all[number].iter().for_each(|&literal| needed[literal as usize] = true);
        need(&mut needed, conflict);
        for &literal in self.trail.iter().rev() {
            let reason = self.reasons[literal as usize].expect("a literal of the trail");
            if needed[literal as usize] && reason != usize::MAX {
                chain.push(reason);
                need(&mut needed, reason);
            }
        }
        chain.reverse();
        chain
    }
}

/// The clauses that CaDiCaL adds, the last one empty; None if it does not decide. Without blocked and covered clauses each follows by unit propagation.
fn prove(dimacs: &str) -> Option<Vec<Vec<u32>>> {
    let options = ["-q", "-n", "--no-binary", "--block=0", "--cover=0", "--condition=0", "-c", CONFLICTS, "-", "-"];
    let mut child = Command::new("cadical").args(options).stdin(Stdio::piped()).stdout(Stdio::piped()).spawn().expect("cadical");
    let mut input = child.stdin.take().expect("its input");
    let text = dimacs.to_string();
    let writer = std::thread::spawn(move || input.write_all(text.as_bytes()));
    let output = child.wait_with_output().expect("its end");
    writer.join().expect("the writer").expect("all is read");
    if output.status.code() != Some(20) {
        return None;
    }
    let read = |word: &str| word.parse::<i64>().expect("a literal");
    let literal = |number: i64| 2 * number.unsigned_abs() as u32 + u32::from(number < 0);
    let added = |line: &str| line.split_ascii_whitespace().map(read).take_while(|&number| number != 0).map(literal).collect();
    let text = String::from_utf8(output.stdout).expect("text");
    // deletions are left out: what is there may be cited
    Some(text.lines().filter(|line| line.starts_with(|c: char| c == '-' || c.is_ascii_digit())).map(added).collect())
}

/// A refutation in the library's format, and its number of hints.
fn refutation(graph: &[u64], literal: u32) -> Option<(Vec<u32>, usize)> {
    let mut clauses = Clauses::of(graph, literal);
    let (mut words, mut steps, mut many) = (vec![], 0, 0);
    for added in prove(&clauses.dimacs())? {
        let hints = clauses.follow(&added).expect("an added clause follows by unit propagation");
        let in_graph: Vec<u32> = added.iter().map(|literal| 2 * clauses.variables[*literal as usize / 2] as u32 + literal % 2).collect();
        write_step(&mut words, &in_graph, &hints);
        steps += 1;
        many += hints.len();
        clauses.add(added, 4 * steps + 3);
    }
    Some((words, many))
}

/// Two routines and the registers that are equal after them, with their lowest bits.
struct Pair {
    routines: [Vec<Record>; 2],
    registers: Vec<(usize, usize)>,
}

/// The routine of the words at the beginnings of lines.
fn routine(lines: &[&str]) -> Vec<Record> {
    let bytes: Vec<u8> = lines.iter().flat_map(|line| u32::from_str_radix(&line[..8], 16).expect("a word").to_le_bytes()).collect();
    let mut records = words(&vec![0; 6 * lines.len()]);
    assert_eq!(native::read_words(&bytes, &mut records).0, 0);
    records.items().chunks(6).map(|record| record.try_into().expect("six words")).collect()
}

/// The pairs that are equal by folding or by a refutation: the registers that the head names, or all that a record writes.
fn pairs() -> Vec<Pair> {
    let text = std::fs::read_to_string(PAIRS).expect(PAIRS);
    let pair = |part: &str| {
        let mut lines = part.lines().filter(|line| !line.is_empty());
        let head = lines.next().expect("a head").to_string();
        let all: Vec<&str> = lines.collect();
        let middle = all.iter().position(|line| *line == "--").expect("two dashes");
        let routines = [routine(&all[..middle]), routine(&all[middle + 1..])];
        let named = head.split_once("--registers ").map(|(_, rest)| rest.split([' ', ';']).next().expect("a list").to_string());
        let register = |name: &str| (name[1..].parse().expect("a register"), if name.starts_with('d') { 64 } else { 128 });
        let mut registers: Vec<(usize, usize)> = match named {
            Some(list) => list.split(',').map(register).collect(),
            None => routines.iter().flatten().map(|record| (record[3] as usize, 128)).collect(),
        };
        registers.sort_unstable();
        registers.dedup();
        Pair { routines, registers }
    };
    let decided = |head: &str| [": equal by folding", ": equal by refutation"].iter().any(|found| head.contains(found));
    text.split("## ").skip(1).filter(|part| part.lines().next().is_some_and(decided)).map(pair).collect()
}

/// Bits of a lane of the last record that writes a register.
fn lane(records: &[Record], register: usize) -> usize {
    let last = records.iter().rev().find(|record| record[3] as usize == register);
    last.map_or(64, |record| [8, 8, 16, 16, 32, 32, 64][record[1] as usize])
}

#[derive(Default)]
struct Seen {
    folded: usize,
    refuted: usize,
    open: usize,
    words: usize,
    hints: usize,
}

/// One lane of a register of a pair.
fn try_lane(sides: &[Side; 2], cut: [usize; 2], memory: &mut Memory, seen: &mut Seen) {
    let [first, second] = sides;
    let (count, literal) = ask(first, second, cut, memory);
    let graph = memory.graph.items()[..count].to_vec();
    let (words, hints) = if literal == 0 { (vec![], 0) } else if let Some(found) = refutation(&graph, literal) { found } else {
        seen.open += 1;
        return;
    };
    memory.table.items_mut().fill(0);
    memory.marks.fit(2 * (INPUTS + count));
    memory.starts.fit(words.len() / 2 + 1);
    assert_eq!(native::equal(first.chosen(), second.chosen(), cut, &words, memory), (0, 0), "a refutation of cadical is refused");
    if literal == 0 {
        seen.folded += 1;
        return;
    }
    assert_eq!(refused_step(&graph, literal, &words), 0);
    seen.refuted += 1;
    seen.words += words.len();
    seen.hints += hints;
}

/// The first `most` lanes of each register.
pub fn main(most: u64) {
    if Command::new("cadical").arg("--version").output().is_err() {
        println!("skipped: refutations of cadical (no cadical)");
        return;
    }
    let (mut seen, mut memory, pairs) = (Seen::default(), Memory::new(), pairs());
    for Pair { routines, registers } in &pairs {
        for &(register, bits) in registers {
            let sides = routines.each_ref().map(|records| Side::of_block(records, register));
            let w = lane(&routines[0], register);
            for k in 0..(bits / w).min(most as usize) {
                try_lane(&sides, [w * k + w - 1, w * k], &mut memory, &mut seen);
            }
        }
    }
    let Seen { folded, refuted, open, words, hints } = seen;
    assert!(folded > 0 && refuted > 0, "{folded} {refuted} {open}");
    println!(
        "cadical: lanes of {} pairs: {folded} fold, {refuted} are refuted by cadical in {words} words with {hints} hints, all accepted; {open} are left open",
        pairs.len()
    );
}
