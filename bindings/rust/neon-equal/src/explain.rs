//! Both runs step by step: the instructions that a register depends on, each with what it reads and writes, up to the first register that parts.
use neon_terms::{Operand, Part, Record, Registers, form};

use crate::pair::{Lane, Pair, Register, Routine};
use crate::show::{Number, signed};

/// A step of a run.
#[derive(Debug, Clone)]
pub struct Step {
    /// `0x8` or `line 3`.
    pub place: String,
    pub instruction: String,
    /// Each source with its lanes: `v1.4s` and `0, 0, -2147483648, 0`, the lowest lane first.
    pub reads: Vec<(String, String)>,
    pub writes: (String, String),
    pub saturated: bool,
    register: u8,
    value: u128,
}

/// Both runs, and the step at which they differ.
#[derive(Debug, Clone)]
pub struct Explained {
    pub old: Vec<Step>,
    pub new: Vec<Step>,
    /// The register at which they part, if it is another than the one that was asked about; and the steps of each that come after.
    pub parts: Option<(u8, usize, usize)>,
}

/// An operand's lanes as numbers, the lowest first. Signed if the instruction is; decimals are enough here.
fn lanes(operand: &Operand, negative: bool, registers: &Registers) -> String {
    let Some(lane) = Lane::of(operand.lane) else { return String::new() };
    let value = registers.0[usize::from(operand.register)];
    let number = |k: u32| Number::of(value >> (lane.bits() * k) & u128::MAX >> (128 - lane.bits()), lane, negative).decimal;
    match operand.part {
        Part::Lanes(count) => (0..count).map(number).collect::<Vec<_>>().join(", "),
        Part::Lane(k) => number(k),
        Part::Scalar => number(0),
        Part::Table => (0..128 / lane.bits()).map(number).collect::<Vec<_>>().join(", "),
    }
}

fn step(routine: &Routine, position: usize, record: &Record, before: &Registers, after: &Registers, saturated: bool) -> Step {
    let register = u8::try_from(record.d).unwrap_or(0);
    let value = after.0[usize::from(register)];
    let (mut reads, mut writes) = (Vec::new(), (format!("v{register}"), format!("0x{value:032x}")));
    if let Some(assembly) = record.assembly() {
        let shown = |k: usize, written: bool, registers: &Registers| {
            let operand = &assembly.operands[k];
            (operand.to_string(), lanes(operand, signed(assembly.mnemonic, k, written), registers))
        };
        let form = form(record.operation, record.arrangement);
        reads.extend(form.filter(|form| form.reads_destination).map(|_| shown(0, false, before)));
        reads.extend((1..assembly.operands.len()).map(|k| shown(k, false, before)));
        writes = shown(0, true, after);
    }
    reads.dedup();
    Step { place: routine.place(position), instruction: record.to_string(), reads, writes, saturated, register, value }
}

/// The steps of a routine that a register depends on, in order.
fn steps(routine: &Routine, register: u8, start: &Registers) -> Vec<Step> {
    let wanted = routine.slice(register);
    let mut registers = *start;
    let mut shown = Vec::new();
    for (k, record) in routine.records().iter().enumerate() {
        let before = registers;
        let saturated = registers.run(std::slice::from_ref(record)).expect("the runner takes what the lowering took");
        if wanted.contains(&k) {
            shown.push(step(routine, k, record, &before, &registers, saturated));
        }
    }
    shown
}

/// The first step whose result no step of the other run has.
fn first_apart(steps: &[Step], other: &[Step]) -> Option<usize> {
    steps.iter().position(|step| other.iter().all(|another| another.value != step.value))
}

pub fn explain(pair: &Pair, register: Register, start: &Registers) -> Explained {
    let mut old = steps(pair.old, register.number, start);
    let mut new = steps(pair.new, register.number, start);
    let mut parts = None;
    if let (Some(p), Some(q)) = (first_apart(&old, &new), first_apart(&new, &old)) {
        let later = (old.len() - p - 1, new.len() - q - 1);
        if old[p].register == new[q].register && later != (0, 0) {
            parts = Some((old[p].register, later.0, later.1));
            old.truncate(p + 1);
            new.truncate(q + 1);
        }
    }
    Explained { old, new, parts }
}

impl Explained {
    /// Indented lines, printed under a register's line.
    pub fn lines(&self, register: Register, [old, new]: [&str; 2]) -> Vec<String> {
        let mut lines = Vec::new();
        for (name, steps) in [(old, &self.old), (new, &self.new)] {
            lines.push(format!("    {name}:{}", if steps.is_empty() { format!(" {register} is as it was") } else { String::new() }));
            for step in steps {
                lines.push(format!("      {}: {}", step.place, step.instruction));
                lines.extend(step.reads.iter().map(|(name, lanes)| format!("        {name} = {lanes}")));
                let saturated = if step.saturated { ", saturated" } else { "" };
                lines.push(format!("        -> {} = {}{saturated}", step.writes.0, step.writes.1));
            }
        }
        if let Some((parted, later_old, later_new)) = self.parts {
            lines.push(format!("    v{parted} parts here; {register} depends on {later_old} later steps of {old} and {later_new} of {new}"));
        }
        lines
    }
}
