//! A record as assembly, in the syntax of LLVM, which GNU's assembler accepts too.
//!
//! The second set, operations 68 to 190, is written out too: the library does not take it yet, and a program that refuses such an instruction
//! names it.
use std::fmt;

use crate::{Arrangement, Operation, Record};

/// An instruction taken apart as the assembler writes it.
#[derive(Debug, Clone, PartialEq, Eq)]
pub struct Assembly {
    /// Without the 2 of the instructions on upper lanes.
    pub mnemonic: &'static str,
    /// Whether a 2 follows the mnemonic.
    pub upper: bool,
    /// The destination first.
    pub operands: Vec<Operand>,
    pub tail: Tail,
}

/// A register, and what of it an instruction reads or writes.
#[derive(Debug, Clone, Copy, PartialEq, Eq)]
pub struct Operand {
    pub register: u8,
    /// Bits of a lane: 8, 16, 32 or 64.
    pub lane: u32,
    pub part: Part,
}

/// Which lanes.
#[derive(Debug, Clone, Copy, PartialEq, Eq)]
pub enum Part {
    /// A number of lanes from the lowest on: `v0.4s`.
    Lanes(u32),
    /// One of them: `v0.s[1]`.
    Lane(u32),
    /// The lowest, as a scalar: `s0`.
    Scalar,
    /// All, as a table: `{ v0.16b }`.
    Table,
}

/// What follows the registers.
#[derive(Debug, Clone, Copy, PartialEq, Eq)]
pub enum Tail {
    None,
    /// `#1`
    Number(u64),
    /// `#1, lsl #8` or, with ones shifted in, `#1, msl #8`.
    Shifted { number: u64, by: u64, ones: bool },
    /// `#0xff00ff`
    Mask(u64),
}

/// The mnemonics of operations 68 to 190, without the 2 of upper lanes.
const SECOND: [&str; 123] = [
    "add", "sub", "mul", "mla", "mls", "smax", "umax", "smin", "umin", "abs", "neg", // 68 to 78
    "cmeq", "cmgt", "cmge", "cmhi", "cmhs", "cmtst", "cmeq", "cmgt", "cmge", "cmle", "cmlt", // 79 to 89
    "and", "bic", "orr", "orn", "eor", "bsl", "bit", "bif", "mvn", "ssra", "usra", "srsra", "ursra", // 90 to 102
    "movi", "mvni", "orr", "bic", "movi", // 103 to 107
    "dup", "mov", "mov", "ext", "zip1", "zip2", "uzp1", "uzp2", "trn1", "trn2", "rev16", "rev32", "rev64", "tbl", // 108 to 121
    "xtn", "sshll", "ushll", "shll", "sshll", "ushll", "shll", // 122 to 128
    "saddl", "uaddl", "ssubl", "usubl", "sabdl", "uabdl", "sabal", "uabal", // 129 to 136
    "smull", "umull", "smlal", "umlal", "smlsl", "umlsl", // 137 to 142
    "saddl", "uaddl", "ssubl", "usubl", "sabdl", "uabdl", "sabal", "uabal", // 143 to 150
    "smull", "umull", "smlal", "umlal", "smlsl", "umlsl", // 151 to 156
    "saddw", "uaddw", "ssubw", "usubw", "saddw", "uaddw", "ssubw", "usubw", // 157 to 164
    "mul", "mla", "mls", "sqdmulh", "sqrdmulh", // 165 to 169
    "smull", "umull", "smlal", "umlal", "smlsl", "umlsl", "smull", "umull", "smlal", "umlal", "smlsl", "umlsl", // 170 to 181
    "addp", "saddlp", "uaddlp", "sadalp", "uadalp", "addp", "addv", "saddlv", "uaddlv", // 182 to 190
];

fn mnemonic(operation: u64) -> Option<&'static str> {
    let second = || SECOND.get(usize::try_from(operation.checked_sub(68)?).ok()?).copied();
    // the 2 of upper lanes is written by itself
    Operation::of(operation).map(|first| first.mnemonic().trim_end_matches('2')).or_else(second)
}

/// A record's registers by the ways in which instructions name them.
struct Names {
    /// Bits of the arrangement's lanes, and their number.
    lane: u32,
    lanes: u32,
}

impl Names {
    fn of(arrangement: Arrangement) -> Self {
        let (lane, lanes) = [(8, 8), (8, 16), (16, 4), (16, 8), (32, 2), (32, 4), (64, 2)][arrangement as usize];
        Self { lane, lanes }
    }

    /// Lanes of the given bits over 64 or 128 bits; None if there are no such lanes.
    fn over(register: u64, lane: u32, view: u32) -> Option<Operand> {
        let register = u8::try_from(register).ok().filter(|&register| register < 32)?;
        matches!(lane, 8 | 16 | 32 | 64).then_some(Operand { register, lane, part: Part::Lanes(view / lane) })
    }

    fn view(&self) -> u32 {
        self.lane * self.lanes
    }

    /// The arrangement's own lanes.
    fn same(&self, register: u64) -> Option<Operand> {
        Self::over(register, self.lane, self.view())
    }

    /// Lanes twice as wide, over 128 bits.
    fn wide(&self, register: u64) -> Option<Operand> {
        Self::over(register, 2 * self.lane, 128)
    }

    /// Lanes half as wide, of the lower or of the upper half.
    fn half(&self, register: u64, upper: bool) -> Option<Operand> {
        Self::over(register, self.lane / 2, if upper { 128 } else { 64 })
    }

    fn one(register: u64, lane: u32, part: Part) -> Option<Operand> {
        Some(Operand { part, ..Self::over(register, lane, 128)? })
    }

    fn element(register: u64, lane: u32, number: u64) -> Option<Operand> {
        let number = u32::try_from(number).ok()?;
        Self::one(register, lane, Part::Lane(number))
    }
}

impl Record {
    /// The record as the assembler writes it, if its operation (1 to 190), its arrangement and its registers exist. An immediate that the
    /// operation does not allow is written as well.
    ///
    /// ```
    /// use neon_terms::{Arrangement, Operation, Part, Record};
    /// let record = Record::new(Operation::SQXTN, Arrangement::B16).d(3).n(1);
    /// let assembly = record.assembly().unwrap();
    /// assert_eq!((assembly.to_string().as_str(), assembly.operands[1].lane), ("sqxtn2 v3.16b, v1.8h", 16));
    /// assert_eq!(Record::new(Operation::SQDMULLE, Arrangement::S4).immediate(7).d(0).n(1).m(2).to_string(), "sqdmull v0.4s, v1.4h, v2.h[7]");
    /// // no lanes of 128 bits
    /// assert!(Record::new(Operation::SQXTN, Arrangement::D2).assembly().is_none());
    /// ```
    pub fn assembly(&self) -> Option<Assembly> {
        let names = Names::of(Arrangement::of(self.arrangement)?);
        let mnemonic = mnemonic(self.operation)?;
        let upper = self.upper(&names);
        let (operands, tail) = if self.operation < 68 { self.first_set(&names, upper)? } else { self.second_set(&names, upper)? };
        Some(Assembly { mnemonic, upper, operands, tail })
    }

    /// Whether the instruction is one on upper lanes: the narrowing ones are by their arrangement, others by their number.
    fn upper(&self, names: &Names) -> bool {
        match self.operation {
            27..=37 | 64..=67 | 122 => names.view() == 128,
            45..=47 | 51..=53 | 126..=128 | 143..=156 | 161..=164 | 176..=181 => true,
            _ => false,
        }
    }

    fn first_set(&self, names: &Names, upper: bool) -> Option<(Vec<Operand>, Tail)> {
        let Self { d, n, m, i, .. } = *self;
        let (d, amount) = (names.same(d)?, Tail::Number(i));
        Some(match self.operation {
            1..=8 | 17 | 18 => (vec![d, names.same(n)?], amount),
            27..=29 => (vec![d, names.wide(n)?], Tail::None),
            30..=37 => (vec![d, names.wide(n)?], amount),
            38 | 39 | 54 | 55 | 60..=63 => (vec![d, names.same(n)?], Tail::None),
            42..=47 => (vec![d, names.half(n, upper)?, names.half(m, upper)?], Tail::None),
            48..=53 => (vec![d, names.half(n, upper)?, Names::element(m, names.lane / 2, i)?], Tail::None),
            64..=67 => (vec![d, names.wide(n)?, names.wide(m)?], Tail::None),
            _ => (vec![d, names.same(n)?, names.same(m)?], Tail::None),
        })
    }

    fn second_set(&self, names: &Names, upper: bool) -> Option<(Vec<Operand>, Tail)> {
        let Self { d, n, m, i, .. } = *self;
        let lane = names.lane;
        let amount = Tail::Number(i);
        Some(match self.operation {
            77 | 78 | 98 | 118..=120 => (vec![names.same(d)?, names.same(n)?], Tail::None),
            85..=89 => (vec![names.same(d)?, names.same(n)?], Tail::Number(0)),
            // mov
            92 if n == m => (vec![names.same(d)?, names.same(n)?], Tail::None),
            99..=102 => (vec![names.same(d)?, names.same(n)?], amount),
            103..=106 => (vec![names.same(d)?], modified(i)),
            107 if names.view() == 64 => (vec![Names::one(d, 64, Part::Scalar)?], mask(i)),
            107 => (vec![Names::over(d, 64, 128)?], mask(i)),
            108 => (vec![names.same(d)?, Names::element(n, lane, i)?], Tail::None),
            109 => (vec![Names::one(d, lane, Part::Scalar)?, Names::element(n, lane, i)?], Tail::None),
            110 => {
                let lanes = u64::from(128 / lane);
                (vec![Names::element(d, lane, i / lanes)?, Names::element(n, lane, i % lanes)?], Tail::None)
            }
            111 => (vec![names.same(d)?, names.same(n)?, names.same(m)?], amount),
            121 => (vec![names.same(d)?, Names::one(n, 8, Part::Table)?, names.same(m)?], Tail::None),
            122 => (vec![names.same(d)?, names.wide(n)?], Tail::None),
            123 | 124 | 126 | 127 => (vec![names.same(d)?, names.half(n, upper)?], amount),
            125 | 128 => (vec![names.same(d)?, names.half(n, upper)?], Tail::Number(u64::from(lane / 2))),
            129..=156 => (vec![names.same(d)?, names.half(n, upper)?, names.half(m, upper)?], Tail::None),
            157..=164 => (vec![names.same(d)?, names.same(n)?, names.half(m, upper)?], Tail::None),
            165..=169 => (vec![names.same(d)?, names.same(n)?, Names::element(m, lane, i)?], Tail::None),
            170..=181 => (vec![names.same(d)?, names.half(n, upper)?, Names::element(m, lane / 2, i)?], Tail::None),
            183..=186 => (vec![Names::over(d, 2 * lane, names.view())?, names.same(n)?], Tail::None),
            187 | 188 => (vec![Names::one(d, lane, Part::Scalar)?, names.same(n)?], Tail::None),
            189 | 190 => (vec![Names::one(d, 2 * lane, Part::Scalar)?, names.same(n)?], Tail::None),
            _ => (vec![names.same(d)?, names.same(n)?, names.same(m)?], Tail::None),
        })
    }
}

/// c + 256 s: c shifted left by 8 s, or for s = 4 and 5 by 8 and 16 with ones after it.
fn modified(i: u64) -> Tail {
    let (number, s) = (i % 256, i / 256);
    match s {
        0 => Tail::Number(number),
        1..=3 => Tail::Shifted { number, by: 8 * s, ones: false },
        _ => Tail::Shifted { number, by: 8 * s.saturating_sub(3), ones: true },
    }
}

/// A byte of ones for each bit of i that is up.
fn mask(i: u64) -> Tail {
    Tail::Mask((0..8).filter(|bit| i >> bit & 1 == 1).map(|bit| 0xff << (8 * bit)).sum())
}

/// The letter of a lane of the given bits.
pub(crate) fn letter(lane: u32) -> char {
    match lane {
        8 => 'b',
        16 => 'h',
        32 => 's',
        _ => 'd',
    }
}

impl fmt::Display for Operand {
    fn fmt(&self, f: &mut fmt::Formatter<'_>) -> fmt::Result {
        let (register, letter) = (self.register, letter(self.lane));
        match self.part {
            Part::Lanes(lanes) => write!(f, "v{register}.{lanes}{letter}"),
            Part::Lane(number) => write!(f, "v{register}.{letter}[{number}]"),
            Part::Scalar => write!(f, "{letter}{register}"),
            Part::Table => write!(f, "{{ v{register}.{}{letter} }}", 128 / self.lane),
        }
    }
}

impl fmt::Display for Tail {
    fn fmt(&self, f: &mut fmt::Formatter<'_>) -> fmt::Result {
        match *self {
            Self::None => Ok(()),
            Self::Number(number) => write!(f, ", #{number}"),
            Self::Shifted { number, by, ones } => write!(f, ", #{number}, {} #{by}", if ones { "msl" } else { "lsl" }),
            Self::Mask(mask) => write!(f, ", #{mask:#x}"),
        }
    }
}

impl fmt::Display for Assembly {
    fn fmt(&self, f: &mut fmt::Formatter<'_>) -> fmt::Result {
        // orr of one register with itself
        let mnemonic = if self.mnemonic == "orr" && self.operands.len() == 2 { "mov" } else { self.mnemonic };
        write!(f, "{mnemonic}{}", if self.upper { "2" } else { "" })?;
        for (k, operand) in self.operands.iter().enumerate() {
            write!(f, "{}{operand}", if k == 0 { " " } else { ", " })?;
        }
        self.tail.fmt(f)
    }
}

impl fmt::Display for Record {
    /// As assembly; a record that names nothing by its six numbers.
    fn fmt(&self, f: &mut fmt::Formatter<'_>) -> fmt::Result {
        match self.assembly() {
            Some(assembly) => assembly.fmt(f),
            None => {
                let numbers = self.numbers();
                write!(f, "no instruction: {} {} {} {} {} {}", numbers[0], numbers[1], numbers[2], numbers[3], numbers[4], numbers[5])
            }
        }
    }
}

#[cfg(test)]
mod tests {
    use super::*;

    #[test]
    fn ways_of_naming_registers() {
        for (numbers, text) in [
            ([6, 6, 1, 0, 1, 0], "ushr v0.2d, v1.2d, #1"),
            ([64, 1, 0, 31, 30, 29], "addhn2 v31.16b, v30.8h, v29.8h"),
            ([37, 2, 16, 0, 1, 0], "sqrshrun v0.4h, v1.4s, #16"),
            ([47, 6, 0, 0, 1, 2], "sqdmlsl2 v0.2d, v1.4s, v2.4s"),
            ([51, 6, 3, 0, 1, 31], "sqdmull2 v0.2d, v1.4s, v31.s[3]"),
            ([92, 1, 0, 0, 1, 1], "mov v0.16b, v1.16b"),
            ([92, 1, 0, 0, 1, 2], "orr v0.16b, v1.16b, v2.16b"),
            ([103, 5, 31, 1, 0, 0], "movi v1.4s, #31"),
            ([104, 5, 31 + 4 * 256, 1, 0, 0], "mvni v1.4s, #31, msl #8"),
            ([105, 3, 31 + 256, 1, 0, 0], "orr v1.8h, #31, lsl #8"),
            ([107, 0, 0x81, 1, 0, 0], "movi d1, #0xff000000000000ff"),
            ([107, 1, 0, 1, 0, 0], "movi v1.2d, #0x0"),
            ([110, 5, 4 * 3 + 2, 1, 5, 0], "mov v1.s[3], v5.s[2]"),
            ([121, 0, 0, 1, 5, 6], "tbl v1.8b, { v5.16b }, v6.8b"),
            ([128, 3, 0, 1, 5, 0], "shll2 v1.8h, v5.16b, #8"),
            ([161, 3, 0, 1, 5, 6], "saddw2 v1.8h, v5.8h, v6.16b"),
            ([189, 0, 0, 1, 5, 0], "saddlv h1, v5.8b"),
            ([191, 0, 0, 1, 5, 0], "no instruction: 191 0 0 1 5 0"),
            ([6, 7, 1, 0, 1, 0], "no instruction: 6 7 1 0 1 0"),
            ([6, 6, 1, 32, 1, 0], "no instruction: 6 6 1 32 1 0"),
            ([42, 0, 0, 0, 1, 2], "no instruction: 42 0 0 0 1 2"),
        ] {
            let [operation, arrangement, i, d, n, m] = numbers;
            assert_eq!(Record { operation, arrangement, i, d, n, m }.to_string(), text);
        }
    }

    #[test]
    fn numbers_without_bound_are_no_panic() {
        for operation in 0..200 {
            for i in [0, 1535, 1536, u64::MAX] {
                for arrangement in [0, 1, 6, 7, u64::MAX] {
                    assert!(!Record { operation, arrangement, i, d: 0, n: 0, m: 0 }.to_string().is_empty());
                }
            }
        }
    }
}
