//! A difference as a person reads it: by lanes of the last instruction, with the lanes of the start that are not 0; and as numbers.
use neon_terms::{Assembly, Record, Registers};

use crate::pair::{Lane, Pair, Register, sources};
use crate::verdict::Difference;

/// Lanes of the start that are shown in a line; the whole start is kept too.
const MOST_SOURCES: usize = 12;

/// A number of a lane's bits, in decimal by the operation's name and in hexadecimal.
#[derive(Debug, Clone, PartialEq, Eq)]
pub struct Number {
    pub decimal: String,
    pub hex: String,
}

impl Number {
    pub fn of(value: u128, lane: Lane, signed: bool) -> Self {
        let (bits, digits) = (lane.bits(), lane.bits() as usize / 4);
        let negative = signed && value >> (bits - 1) & 1 == 1;
        let decimal = if negative { format!("-{}", (1u128 << bits) - value) } else { value.to_string() };
        Self { decimal, hex: format!("0x{value:0digits$x}") }
    }
}

impl std::fmt::Display for Number {
    fn fmt(&self, f: &mut std::fmt::Formatter<'_>) -> std::fmt::Result {
        write!(f, "{} ({})", self.decimal, self.hex)
    }
}

/// A lane that differs.
#[derive(Debug, Clone)]
pub struct LaneDifference {
    pub lane: u32,
    pub old: Number,
    pub new: Number,
}

/// A lane of the start that is not 0: `v1.s[2]`.
#[derive(Debug, Clone)]
pub struct Source {
    pub name: String,
    pub value: Number,
}

/// A difference, taken apart.
#[derive(Debug, Clone)]
pub struct Shown {
    /// The register as lanes: `v5.4s`.
    pub name: String,
    /// The lanes that differ, the lowest first.
    pub lanes: Vec<LaneDifference>,
    pub sources: Vec<Source>,
    /// The registers that matter and what they hold at the start.
    pub start: Vec<(u8, u128)>,
    pub whole: Registers,
    pub old: String,
    pub new: String,
}

/// Lanes as an instruction names them: how wide, and whether its name reads them as signed numbers.
#[derive(Clone, Copy)]
struct View {
    lane: Lane,
    signed: bool,
}

/// The lane of an operand, 0 for the destination, 1 and 2 for the sources.
fn view(assembly: &Assembly, operand: usize, written: bool) -> Option<View> {
    let lane = Lane::of(assembly.operands.get(operand)?.lane)?;
    Some(View { lane, signed: signed(assembly.mnemonic, operand, written) })
}

/// Whether an operation's name reads an operand's lanes as signed numbers, or writes the destination's so.
pub fn signed(mnemonic: &str, operand: usize, written: bool) -> bool {
    match (mnemonic, operand) {
        // signed sources, a result that is never negative
        ("sqshlu" | "sqxtun" | "sqshrun" | "sqrshrun" | "sabd" | "sabdl", 0) if written => false,
        // signed and unsigned together
        ("suqadd", 1) => false,
        ("usqadd", 1) => true,
        // a shift by a register goes either way
        ("ushl" | "urshl" | "uqshl" | "uqrshl", 2) => true,
        // an s that is not for signed
        ("shl" | "shll" | "sli" | "sri" | "shrn" | "sub" | "subhn", _) => false,
        _ => mnemonic.starts_with('s') || matches!(mnemonic, "cmgt" | "cmge" | "cmle" | "cmlt" | "abs" | "neg"),
    }
}

/// How a register of the start is read first by what `counted` depends on, in the old routine if it is, else in the new.
fn first_read(pair: &Pair, counted: u8, register: u8) -> Option<View> {
    [pair.old, pair.new].into_iter().find_map(|routine| {
        let records = routine.records();
        let before = records.iter().position(|record| record.d == u64::from(register)).unwrap_or(records.len());
        let mut steps = routine.slice(counted).into_iter().take_while(|&k| k <= before).map(|k| &records[k]);
        steps.find(|record| sources(record).contains(&register)).and_then(|record| read_as(record, register))
    })
}

fn read_as(record: &Record, register: u8) -> Option<View> {
    let assembly = record.assembly()?;
    let operand = (0..assembly.operands.len()).rev().find(|&k| assembly.operands[k].register == register)?;
    view(&assembly, operand, false)
}

/// Registers and what they hold: `v1=0x… v2=0x…`.
pub fn held(start: &Registers, registers: &[u8]) -> String {
    let one = |&register: &u8| format!("v{register}=0x{:032x}", start.0[usize::from(register)]);
    registers.iter().map(one).collect::<Vec<_>>().join(" ")
}

fn cut(value: u128, lane: Lane, number: u32) -> u128 {
    value >> (lane.bits() * number) & u128::MAX >> (128 - lane.bits())
}

impl Shown {
    pub fn of(pair: &Pair, register: Register, difference: &Difference) -> Self {
        let lane = pair.lane(register);
        let last = [pair.old, pair.new].into_iter().filter_map(|routine| routine.last(register.number)?.assembly());
        let signed = last.filter_map(|assembly| view(&assembly, 0, true)).any(|view| view.signed);
        let count = register.bits() / lane.bits();
        let lanes = (0..count).map(|k| (k, cut(difference.old, lane, k), cut(difference.new, lane, k))).filter(|(_, old, new)| old != new);
        let number = |value| Number::of(value, lane, signed);
        let held = |&register: &u8| (register, difference.start.0[usize::from(register)]);
        let digits = register.bits() as usize / 4;
        Self {
            name: format!("v{}.{count}{}", register.number, lane.letter()),
            lanes: lanes.map(|(lane, old, new)| LaneDifference { lane, old: number(old), new: number(new) }).collect(),
            sources: difference.matter.iter().flat_map(|&matters| Self::sources(pair, register, &difference.start, matters)).collect(),
            start: difference.matter.iter().map(held).collect(),
            whole: difference.start,
            old: format!("0x{:0digits$x}", difference.old),
            new: format!("0x{:0digits$x}", difference.new),
        }
    }

    /// The lanes of a register of the start that are not 0.
    fn sources(pair: &Pair, counted: Register, start: &Registers, register: u8) -> Vec<Source> {
        let View { lane, signed } = first_read(pair, counted.number, register).unwrap_or(View { lane: pair.lane(counted), signed: false });
        let value = |k| cut(start.0[usize::from(register)], lane, k);
        let source = |k| Source { name: format!("v{register}.{}[{k}]", lane.letter()), value: Number::of(value(k), lane, signed) };
        (0..128 / lane.bits()).filter(|&k| value(k) != 0).map(source).collect()
    }

    /// `v5.4s lane 2: old 0 (0x00000000), new -1 (0xffffffff), where v1.s[2] = v2.s[2] = -2147483648 (0x80000000), all else 0`
    pub fn line(&self, [old, new]: [&str; 2]) -> String {
        let Some(first) = self.lanes.first() else { return format!("{old} {}, {new} {}", self.old, self.new) };
        let others: Vec<String> = self.lanes[1..].iter().map(|lane| lane.lane.to_string()).collect();
        let also = match others.len() {
            0 => String::new(),
            1 => format!("; lane {} differs too", others[0]),
            _ => format!("; lanes {} differ too", others.join(", ")),
        };
        format!("{} lane {}: {old} {}, {new} {}, where {}{also}", self.name, first.lane, first.old, first.new, self.sources_line())
    }

    /// Lanes of the start with the same number are grouped.
    fn sources_line(&self) -> String {
        if self.sources.is_empty() {
            return "all registers are 0".to_string();
        }
        let mut groups: Vec<(&Number, Vec<&str>)> = Vec::new();
        for source in self.sources.iter().take(MOST_SOURCES) {
            match groups.iter_mut().find(|(value, _)| **value == source.value) {
                Some((_, names)) => names.push(&source.name),
                None => groups.push((&source.value, vec![&source.name])),
            }
        }
        let mut parts: Vec<String> = groups.iter().map(|(value, names)| format!("{} = {value}", names.join(" = "))).collect();
        match self.sources.len().checked_sub(MOST_SOURCES) {
            Some(more) if more > 0 => parts.push(format!("{more} lanes more are not 0")),
            _ => parts.push("all else 0".to_string()),
        }
        parts.join(", ")
    }

    /// The whole start, and the whole registers after it.
    pub fn numbers(&self, [old, new]: [&str; 2]) -> String {
        let registers: Vec<u8> = self.start.iter().map(|(register, _)| *register).collect();
        let at = if registers.is_empty() { "any start".to_string() } else { held(&self.whole, &registers) };
        format!("at {at}: {old} {}, {new} {}", self.old, self.new)
    }

    /// The start as a file for the program `run`: a line for each register, v0 first.
    pub fn replay(&self) -> String {
        self.whole.0.iter().map(|value| format!("{value:032x}\n")).collect()
    }
}

#[cfg(test)]
mod tests {
    use super::*;

    #[test]
    fn numbers_by_sign() {
        assert_eq!(Number::of(0x8000_0000, Lane::S, true).to_string(), "-2147483648 (0x80000000)");
        assert_eq!(Number::of(0x8000_0000, Lane::S, false).to_string(), "2147483648 (0x80000000)");
        assert_eq!(Number::of(0xff, Lane::B, true).to_string(), "-1 (0xff)");
        assert_eq!(Number::of(u128::from(u64::MAX), Lane::D, true).to_string(), "-1 (0xffffffffffffffff)");
        assert_eq!(Number::of(5, Lane::H, true).to_string(), "5 (0x0005)");
    }

    #[test]
    fn signs_by_the_operation_s_name() {
        for (mnemonic, operand, written, wanted) in [
            ("sqadd", 0, true, true), ("uqadd", 0, true, false), ("shl", 1, false, false), ("sshl", 2, false, true), ("ushl", 1, false, false),
            ("ushl", 2, false, true), ("sqxtun", 0, true, false), ("sqxtun", 1, false, true), ("suqadd", 0, true, true), ("suqadd", 1, false, false),
            ("usqadd", 0, true, false), ("usqadd", 1, false, true), ("cnt", 1, false, false), ("subhn", 1, false, false), ("sabd", 1, false, true),
        ] {
            assert_eq!(signed(mnemonic, operand, written), wanted, "{mnemonic} {operand}");
        }
    }
}
