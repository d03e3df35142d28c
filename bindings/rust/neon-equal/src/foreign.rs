//! Instructions that are none of our operations, named: the second set, branches, loads and stores, moves and sums of general registers, and what moves
//! between these and vectors, in LLVM's syntax. Of any other the word and its class are told.
use crate::second;

/// What an instruction is that is none of ours.
#[derive(Debug, Clone, Copy, PartialEq, Eq)]
pub enum Class {
    Branch,
    Load,
    Store,
    System,
    Immediate,
    Register,
    Simd,
    Sve,
    Undefined,
}

impl Class {
    /// By bits 28 to 25, the first table of the manual's encodings.
    fn of(word: u32) -> Self {
        match word >> 25 & 15 {
            0b0010 => Self::Sve,
            0b1000 | 0b1001 => Self::Immediate,
            0b1010 | 0b1011 if is_system(word) => Self::System,
            0b1010 | 0b1011 => Self::Branch,
            0b0100 | 0b0110 | 0b1100 | 0b1110 if is_load(word) => Self::Load,
            0b0100 | 0b0110 | 0b1100 | 0b1110 => Self::Store,
            0b0101 | 0b1101 => Self::Register,
            0b0111 | 0b1111 => Self::Simd,
            _ => Self::Undefined,
        }
    }

    pub fn name(self) -> &'static str {
        match self {
            Self::Branch => "branch",
            Self::Load => "load",
            Self::Store => "store",
            Self::System => "system instruction",
            Self::Immediate => "data processing, immediate",
            Self::Register => "data processing, register",
            Self::Simd => "SIMD or floating point",
            Self::Sve => "SVE",
            Self::Undefined => "undefined",
        }
    }

    /// Why such an instruction is refused.
    pub fn reason(self) -> String {
        match self {
            Self::Branch | Self::Load | Self::Store | Self::System => format!("a {}, not one of our operations", self.name()),
            _ => "not one of our operations".to_string(),
        }
    }
}

/// Hints, barriers, exceptions and system registers.
fn is_system(word: u32) -> bool {
    word >> 24 == 0xd4 || word >> 22 == 0x354
}

/// Of loads and stores: pairs and structures by bit 22, literals always, other registers by opc.
fn is_load(word: u32) -> bool {
    let literal = word >> 24 & 0x3b == 0x18;
    let single = word >> 27 & 7 == 0b111;
    let quad_store = word >> 22 & 3 == 2 && word >> 26 & 1 == 1;
    literal || if single { word >> 22 & 3 != 0 && !quad_store } else { word >> 22 & 1 == 1 }
}

pub struct Foreign {
    pub text: String,
    pub class: Class,
}

/// The instruction at an offset of a routine. A branch's target is such an offset too.
pub fn of(word: u32, offset: u64) -> Foreign {
    let class = Class::of(word);
    let general = || match class {
        Class::Branch => branch(word, offset),
        Class::System => system(word),
        Class::Load | Class::Store => memory(word, offset),
        Class::Immediate => immediate(word, offset),
        Class::Register => register(word),
        Class::Simd => simd(word),
        Class::Sve | Class::Undefined => (word >> 16 == 0).then(|| format!("udf #{word}")),
    };
    let text = second::record(word).map(|record| record.to_string()).or_else(general);
    Foreign { text: text.unwrap_or_else(|| format!(".inst 0x{word:08x} ({})", class.name())), class }
}

fn bits(word: u32, low: u32, count: u32) -> u32 {
    word >> low & ((1 << count) - 1)
}

fn signed(word: u32, low: u32, count: u32) -> i64 {
    let value = i64::from(bits(word, low, count));
    if value >> (count - 1) == 1 { value - (1 << count) } else { value }
}

/// A general register; 31 is the zero register.
fn general(wide: bool, number: u32) -> String {
    let letter = if wide { 'x' } else { 'w' };
    if number == 31 { format!("{letter}zr") } else { format!("{letter}{number}") }
}

/// A general register; 31 is the stack pointer.
fn pointer(wide: bool, number: u32) -> String {
    match (number, wide) {
        (31, true) => "sp".to_string(),
        (31, false) => "wsp".to_string(),
        _ => general(wide, number),
    }
}

/// The place the given number of words further.
fn target(offset: u64, words: i64) -> String {
    let at = i128::from(offset) + 4 * i128::from(words);
    if at < 0 { format!("-0x{:x}", -at) } else { format!("0x{at:x}") }
}

const CONDITIONS: [&str; 16] = ["eq", "ne", "hs", "lo", "mi", "pl", "vs", "vc", "hi", "ls", "ge", "lt", "gt", "le", "al", "nv"];

fn branch(word: u32, offset: u64) -> Option<String> {
    let rt = |wide| general(wide, bits(word, 0, 5));
    let near = target(offset, signed(word, 5, 19));
    Some(match word >> 24 {
        0x14..=0x17 => format!("b {}", target(offset, signed(word, 0, 26))),
        0x94..=0x97 => format!("bl {}", target(offset, signed(word, 0, 26))),
        0x54 if bits(word, 4, 1) == 0 => format!("b.{} {near}", CONDITIONS[bits(word, 0, 4) as usize]),
        0x34 | 0xb4 => format!("cbz {}, {near}", rt(word >> 31 == 1)),
        0x35 | 0xb5 => format!("cbnz {}, {near}", rt(word >> 31 == 1)),
        0x36 | 0x37 | 0xb6 | 0xb7 => {
            let (name, bit) = (if bits(word, 24, 1) == 0 { "tbz" } else { "tbnz" }, bits(word, 31, 1) << 5 | bits(word, 19, 5));
            format!("{name} {}, #{bit}, {}", rt(bit > 31), target(offset, signed(word, 5, 14)))
        }
        _ => {
            let to = general(true, bits(word, 5, 5));
            match word & 0xffff_fc1f {
                0xd61f_0000 => format!("br {to}"),
                0xd63f_0000 => format!("blr {to}"),
                0xd65f_0000 if to == "x30" => "ret".to_string(),
                0xd65f_0000 => format!("ret {to}"),
                _ => return match word {
                    0xd65f_0bff => Some("retaa".to_string()),
                    0xd65f_0fff => Some("retab".to_string()),
                    _ => None,
                },
            }
        }
    })
}

/// The hints by number.
const HINTS: [(u32, &str); 24] = [
    (0, "nop"), (1, "yield"), (2, "wfe"), (3, "wfi"), (4, "sev"), (5, "sevl"), (7, "xpaclri"), (8, "pacia1716"), (10, "pacib1716"), (12, "autia1716"),
    (14, "autib1716"), (20, "csdb"), (24, "paciaz"), (25, "paciasp"), (26, "pacibz"), (27, "pacibsp"), (28, "autiaz"), (29, "autiasp"), (30, "autibz"),
    (31, "autibsp"), (32, "bti"), (34, "bti c"), (36, "bti j"), (38, "bti jc"),
];

fn system(word: u32) -> Option<String> {
    if word & 0xffff_f01f == 0xd503_201f {
        let number = bits(word, 5, 7);
        return HINTS.iter().find(|(hint, _)| *hint == number).map(|(_, name)| (*name).to_string());
    }
    let number = bits(word, 5, 16);
    match word & 0xffe0_001f {
        0xd400_0001 => Some(format!("svc #{}", hex(number))),
        0xd420_0000 => Some(format!("brk #{}", hex(number))),
        0xd440_0000 => Some(format!("hlt #{}", hex(number))),
        _ => None,
    }
}

fn hex(number: u32) -> String {
    if number == 0 { "0".to_string() } else { format!("{number:#x}") }
}

/// Mnemonic, register and bytes of a load or store of one register, by size, V and opc. `u` precedes the end of the unscaled ones.
fn one_register(word: u32, middle: &str) -> Option<(String, String, u32)> {
    let (size, vector, opc, rt) = (bits(word, 30, 2), bits(word, 26, 1) == 1, bits(word, 22, 2), bits(word, 0, 5));
    if vector {
        let (letter, log) = match (size, opc) {
            (_, 0 | 1) => (['b', 'h', 's', 'd'][size as usize], size),
            (0, _) => ('q', 4),
            _ => return None,
        };
        let name = if opc % 2 == 1 { "ld" } else { "st" };
        return Some((format!("{name}{middle}r"), format!("{letter}{rt}"), log));
    }
    let (name, end, wide) = match (size, opc) {
        (0, 0) => ("st", "b", false),
        (0, 1) => ("ld", "b", false),
        (0, 2) => ("ld", "sb", true),
        (0, 3) => ("ld", "sb", false),
        (1, 0) => ("st", "h", false),
        (1, 1) => ("ld", "h", false),
        (1, 2) => ("ld", "sh", true),
        (1, 3) => ("ld", "sh", false),
        (2, 0) => ("st", "", false),
        (2, 1) => ("ld", "", false),
        (2, 2) => ("ld", "sw", true),
        (3, 0) => ("st", "", true),
        (3, 1) => ("ld", "", true),
        _ => return None,
    };
    Some((format!("{name}{middle}r{end}"), general(wide, rt), size))
}

fn memory(word: u32, offset: u64) -> Option<String> {
    let base = pointer(true, bits(word, 5, 5));
    let at = |number: i64| if number == 0 { format!("[{base}]") } else { format!("[{base}, #{number}]") };
    match (bits(word, 27, 3), bits(word, 24, 2)) {
        (0b111, 0b01) => {
            let (name, rt, log) = one_register(word, "")?;
            Some(format!("{name} {rt}, {}", at(i64::from(bits(word, 10, 12)) << log)))
        }
        (0b111, 0b00) if bits(word, 21, 1) == 0 => {
            let (number, mode) = (signed(word, 12, 9), bits(word, 10, 2));
            let (name, rt, _) = one_register(word, if mode == 0 { "u" } else { "" })?;
            match mode {
                0 => Some(format!("{name} {rt}, {}", at(number))),
                1 => Some(format!("{name} {rt}, [{base}], #{number}")),
                3 => Some(format!("{name} {rt}, [{base}, #{number}]!")),
                _ => None,
            }
        }
        (0b111, 0b00) if bits(word, 10, 2) == 2 => {
            let (name, rt, log) = one_register(word, "")?;
            Some(format!("{name} {rt}, [{base}, {}]", extended(word, log)?))
        }
        (0b101, _) => pair(word, &base, at),
        (0b011, 0b00) => {
            let (vector, opc, rt) = (bits(word, 26, 1) == 1, bits(word, 30, 2), bits(word, 0, 5));
            let (name, register) = match (vector, opc) {
                (true, 0..=2) => ("ldr", format!("{}{rt}", ['s', 'd', 'q'][opc as usize])),
                (false, 0 | 1) => ("ldr", general(opc == 1, rt)),
                (false, 2) => ("ldrsw", general(true, rt)),
                _ => return None,
            };
            Some(format!("{name} {register}, {}", target(offset, signed(word, 5, 19))))
        }
        (0b001, 0b00) if word >> 31 == 0 && bits(word, 26, 1) == 1 => structures(word, &base),
        (0b001, 0b01) if word >> 31 == 0 && bits(word, 26, 1) == 1 => structure(word, &base),
        _ => None,
    }
}

/// A register that is added to the base, shifted by the size of the access if bit S is set.
fn extended(word: u32, log: u32) -> Option<String> {
    let (option, shifted, rm) = (bits(word, 13, 3), bits(word, 12, 1) == 1, bits(word, 16, 5));
    let name = match option {
        0b010 => "uxtw",
        0b011 => "lsl",
        0b110 => "sxtw",
        0b111 => "sxtx",
        _ => return None,
    };
    let register = general(option & 1 == 1, rm);
    Some(match (shifted, name) {
        (true, _) => format!("{register}, {name} #{log}"),
        (false, "lsl") => register,
        _ => format!("{register}, {name}"),
    })
}

fn pair(word: u32, base: &str, at: impl Fn(i64) -> String) -> Option<String> {
    let (opc, vector, load, mode) = (bits(word, 30, 2), bits(word, 26, 1) == 1, bits(word, 22, 1) == 1, bits(word, 23, 3));
    let (rt, rt2) = (bits(word, 0, 5), bits(word, 10, 5));
    let (log, end) = match (vector, opc) {
        (true, 0..=2) => (2 + opc, ""),
        (false, 0) => (2, ""),
        (false, 2) => (3, ""),
        (false, 1) if load && mode != 0 => (2, "sw"),
        _ => return None,
    };
    let name = |register| if vector { format!("{}{register}", ['s', 'd', 'q'][opc as usize]) } else { general(opc != 0, register) };
    let number = signed(word, 15, 7) << log;
    let place = match mode {
        0 | 2 => at(number),
        1 => format!("[{base}], #{number}"),
        3 => format!("[{base}, #{number}]!"),
        _ => return None,
    };
    let middle = if mode == 0 { "n" } else { "" };
    Some(format!("{}{middle}p{end} {}, {}, {place}", if load { "ld" } else { "st" }, name(rt), name(rt2)))
}

/// `{ v0.16b, v1.16b }` and what follows.
fn registers(first: u32, count: u32, lanes: &str) -> String {
    let names: Vec<String> = (0..count).map(|k| format!("v{}.{lanes}", (first + k) % 32)).collect();
    format!("{{ {} }}", names.join(", "))
}

const ARRANGEMENTS: [&str; 8] = ["8b", "16b", "4h", "8h", "2s", "4s", "1d", "2d"];

/// Where a structure's bytes are, and by how much the base goes on afterwards.
fn after(word: u32, base: &str, bytes: u32) -> Option<String> {
    match (bits(word, 23, 1), bits(word, 16, 5)) {
        (0, 0) => Some(format!("[{base}]")),
        (0, _) => None,
        (_, 31) => Some(format!("[{base}], #{bytes}")),
        (_, rm) => Some(format!("[{base}], x{rm}")),
    }
}

/// LD1 to LD4 and ST1 to ST4 of whole registers.
fn structures(word: u32, base: &str) -> Option<String> {
    let (full, load, size) = (bits(word, 30, 1), bits(word, 22, 1) == 1, bits(word, 10, 2));
    let (elements, count) = match bits(word, 12, 4) {
        0b0000 => (4, 4),
        0b0010 => (1, 4),
        0b0100 => (3, 3),
        0b0110 => (1, 3),
        0b0111 => (1, 1),
        0b1000 => (2, 2),
        0b1010 => (1, 2),
        _ => return None,
    };
    if bits(word, 21, 1) == 1 || elements > 1 && (size, full) == (3, 0) {
        return None;
    }
    let lanes = ARRANGEMENTS[(2 * size + full) as usize];
    let place = after(word, base, count * (8 << full))?;
    Some(format!("{}{elements} {}, {place}", if load { "ld" } else { "st" }, registers(bits(word, 0, 5), count, lanes)))
}

/// LD1 to LD4 and ST1 to ST4 of one lane, and LD1R to LD4R.
fn structure(word: u32, base: &str) -> Option<String> {
    let (full, load, size, s, rt) = (bits(word, 30, 1), bits(word, 22, 1) == 1, bits(word, 10, 2), bits(word, 12, 1), bits(word, 0, 5));
    let (opcode, count) = (bits(word, 13, 3), 1 + bits(word, 21, 1) + 2 * bits(word, 13, 1));
    if opcode >> 1 == 3 {
        let place = after(word, base, count << size)?;
        let lanes = ARRANGEMENTS[(2 * size + full) as usize];
        return (load && s == 0).then(|| format!("ld{count}r {}, {place}", registers(rt, count, lanes)));
    }
    let (letter, log, index) = match (opcode >> 1, size) {
        (0, _) => ('b', 0, full << 3 | s << 2 | size),
        (1, 0 | 2) => ('h', 1, full << 2 | s << 1 | size >> 1),
        (2, 0) => ('s', 2, full << 1 | s),
        (2, 1) if s == 0 => ('d', 3, full),
        _ => return None,
    };
    let place = after(word, base, count << log)?;
    Some(format!("{}{count} {}[{index}], {place}", if load { "ld" } else { "st" }, registers(rt, count, &letter.to_string())))
}

fn immediate(word: u32, offset: u64) -> Option<String> {
    let (wide, d, n) = (word >> 31 == 1, bits(word, 0, 5), bits(word, 5, 5));
    match bits(word, 23, 3) {
        0b000 | 0b001 => {
            let number = signed(word, 5, 19) << 2 | i64::from(bits(word, 29, 2));
            let to = general(true, d);
            if wide {
                return Some(format!("adrp {to}, #{}", number << 12));
            }
            let at = i128::from(offset) + i128::from(number);
            Some(if at < 0 { format!("adr {to}, -0x{:x}", -at) } else { format!("adr {to}, 0x{at:x}") })
        }
        0b010 => Some(sum_immediate(word, wide, d, n)),
        0b101 => {
            let (opc, number, by) = (bits(word, 29, 2), u64::from(bits(word, 5, 16)), 16 * bits(word, 21, 2));
            if !wide && by > 16 {
                return None;
            }
            let shift = if by == 0 { String::new() } else { format!(", lsl #{by}") };
            let (to, ones) = (general(wide, d), !wide && number == 0xffff);
            match opc {
                0 if number == 0 && by != 0 => Some(format!("movn {to}, #0{shift}")).filter(|_| !ones),
                0 if ones => Some(format!("movn {to}, #{number}{shift}")),
                0 => Some(format!("mov {to}, #{}", if wide { !(number << by) as i64 } else { i64::from(!((number << by) as u32) as i32) })),
                2 if number == 0 && by != 0 => Some(format!("movz {to}, #0{shift}")),
                2 => Some(format!("mov {to}, #{}", if wide { (number << by) as i64 } else { i64::from((number << by) as u32 as i32) })),
                3 => Some(format!("movk {to}, #{number}{shift}")),
                _ => None,
            }
        }
        _ => None,
    }
}

/// ADD and SUB of a number, with their other names.
fn sum_immediate(word: u32, wide: bool, d: u32, n: u32) -> String {
    let (minus, flags, number, shifted) = (bits(word, 30, 1) == 1, bits(word, 29, 1) == 1, bits(word, 10, 12), bits(word, 22, 1) == 1);
    let tail = format!("#{number}{}", if shifted { ", lsl #12" } else { "" });
    let from = pointer(wide, n);
    match (minus, flags) {
        (false, false) if number == 0 && !shifted && (d == 31 || n == 31) => format!("mov {}, {from}", pointer(wide, d)),
        (minus, true) if d == 31 => format!("{} {from}, {tail}", if minus { "cmp" } else { "cmn" }),
        (minus, true) => format!("{} {}, {from}, {tail}", if minus { "subs" } else { "adds" }, general(wide, d)),
        (minus, false) => format!("{} {}, {from}, {tail}", if minus { "sub" } else { "add" }, pointer(wide, d)),
    }
}

/// AND to BICS, ADD and SUB, of registers that may be shifted.
fn register(word: u32) -> Option<String> {
    let (wide, opc, amount, inverted) = (word >> 31 == 1, bits(word, 29, 2), bits(word, 10, 6), bits(word, 21, 1) == 1);
    let [d, n, m] = [0, 5, 16].map(|low| bits(word, low, 5));
    let logical = bits(word, 24, 5) == 0b01010;
    if !wide && amount > 31 || !logical && (bits(word, 24, 5) != 0b01011 || inverted || bits(word, 22, 2) == 3) {
        return None;
    }
    let kind = ["lsl", "lsr", "asr", "ror"][bits(word, 22, 2) as usize];
    let plain = amount == 0 && kind == "lsl";
    let shifted = if plain { general(wide, m) } else { format!("{}, {kind} #{amount}", general(wide, m)) };
    let (to, from) = (general(wide, d), general(wide, n));
    let name = match (logical, opc, inverted) {
        (true, 1, false) if n == 31 && plain => return Some(format!("mov {to}, {shifted}")),
        (true, 1, true) if n == 31 => return Some(format!("mvn {to}, {shifted}")),
        (true, 3, false) if d == 31 => return Some(format!("tst {from}, {shifted}")),
        (false, 1, _) if d == 31 => return Some(format!("cmn {from}, {shifted}")),
        (false, 3, _) if d == 31 => return Some(format!("cmp {from}, {shifted}")),
        (false, 2 | 3, _) if n == 31 => return Some(format!("{} {to}, {shifted}", if opc == 2 { "neg" } else { "negs" })),
        (true, _, false) => ["and", "orr", "eor", "ands"][opc as usize],
        (true, _, true) => ["bic", "orn", "eon", "bics"][opc as usize],
        (false, ..) => ["add", "adds", "sub", "subs"][opc as usize],
    };
    Some(format!("{name} {to}, {from}, {shifted}"))
}

fn simd(word: u32) -> Option<String> {
    let (d, n, full) = (bits(word, 0, 5), bits(word, 5, 5), bits(word, 30, 1));
    match word & 0xffff_fc00 {
        0x1e27_0000 => return Some(format!("fmov s{d}, {}", general(false, n))),
        0x1e26_0000 => return Some(format!("fmov {}, s{n}", general(false, d))),
        0x9e67_0000 => return Some(format!("fmov d{d}, {}", general(true, n))),
        0x9e66_0000 => return Some(format!("fmov {}, d{n}", general(true, d))),
        _ => {}
    }
    if word & 0xbfe0_8c00 == 0x0e00_0000 {
        // TBL and TBX of one to four registers
        let (name, lanes) = (if bits(word, 12, 1) == 0 { "tbl" } else { "tbx" }, ARRANGEMENTS[full as usize]);
        return Some(format!("{name} v{d}.{lanes}, {}, v{}.{lanes}", registers(n, 1 + bits(word, 13, 2), "16b"), bits(word, 16, 5)));
    }
    if word & 0xbfe0_8400 == 0x0e00_0400 {
        return copy_general(word, full, d, n);
    }
    if word & 0x9f3e_0c00 == 0x0e30_0800 {
        let (size, lanes) = (bits(word, 22, 2), (2 * bits(word, 22, 2) + full) as usize);
        let name = match (bits(word, 29, 1), bits(word, 12, 5)) {
            (0, 0b01010) => "smaxv",
            (1, 0b01010) => "umaxv",
            (0, 0b11010) => "sminv",
            (1, 0b11010) => "uminv",
            _ => return None,
        };
        let letter = ['b', 'h', 's'].get(size as usize).filter(|_| lanes != 4)?;
        return Some(format!("{name} {letter}{d}, v{n}.{}", ARRANGEMENTS[lanes]));
    }
    if word & 0x9f20_0400 == 0x0e20_0400 {
        let (size, u) = (bits(word, 22, 2), bits(word, 29, 1));
        let (name, most) = match (u, bits(word, 11, 5)) {
            (0, 0b00100) => ("shsub", 2),
            (1, 0b00100) => ("uhsub", 2),
            (0, 0b10100) => ("smaxp", 2),
            (1, 0b10100) => ("umaxp", 2),
            (0, 0b10101) => ("sminp", 2),
            (1, 0b10101) => ("uminp", 2),
            (1, 0b10011) => ("pmul", 0),
            _ => return None,
        };
        let lanes = ARRANGEMENTS[(2 * size + full) as usize];
        return (size <= most).then(|| format!("{name} v{d}.{lanes}, v{n}.{lanes}, v{}.{lanes}", bits(word, 16, 5)));
    }
    None
}

/// DUP, INS, SMOV and UMOV between a vector's lanes and a general register.
fn copy_general(word: u32, full: u32, d: u32, n: u32) -> Option<String> {
    let imm5 = bits(word, 16, 5);
    let z = imm5.trailing_zeros();
    let letter = ['b', 'h', 's', 'd'].get(z as usize)?;
    let index = imm5 >> (z + 1);
    let lanes = ARRANGEMENTS[(2 * z + full) as usize];
    match (bits(word, 11, 4), full) {
        (0b0001, _) if (z, full) != (3, 0) => Some(format!("dup v{d}.{lanes}, {}", general(z == 3, n))),
        (0b0011, 1) => Some(format!("mov v{d}.{letter}[{index}], {}", general(z == 3, n))),
        (0b0101, _) if z < 2 + full => Some(format!("smov {}, v{n}.{letter}[{index}]", general(full == 1, d))),
        (0b0111, _) if (full == 1) == (z == 3) => {
            let name = if z < 2 { "umov" } else { "mov" };
            Some(format!("{name} {}, v{n}.{letter}[{index}]", general(full == 1, d)))
        }
        _ => None,
    }
}

#[cfg(test)]
mod tests {
    use super::*;

    #[test]
    fn texts_by_class() {
        for (word, text, class) in [
            (0x4f00_07e1, "movi v1.4s, #31", Class::Simd),
            (0x1400_0001, "b 0x24", Class::Branch),
            (0x54ff_ffe1, "b.ne 0x1c", Class::Branch),
            (0xb4ff_fee0, "cbz x0, -0x4", Class::Branch),
            (0xd65f_0020, "ret x1", Class::Branch),
            (0x3dc0_0400, "ldr q0, [x0, #16]", Class::Load),
            (0x3c81_0400, "str q0, [x0], #16", Class::Store),
            (0xad00_0400, "stp q0, q1, [x0]", Class::Store),
            (0x4cdf_2000, "ld1 { v0.16b, v1.16b, v2.16b, v3.16b }, [x0], #64", Class::Load),
            (0x4d40_c800, "ld1r { v0.4s }, [x0]", Class::Load),
            (0xd503_201f, "nop", Class::System),
            (0xd400_0001, "svc #0", Class::System),
            (0x9100_43ff, "add sp, sp, #16", Class::Immediate),
            (0x5280_00a0, "mov w0, #5", Class::Immediate),
            (0xaa01_03e0, "mov x0, x1", Class::Register),
            (0x4e04_0c00, "dup v0.4s, w0", Class::Simd),
            (0x1e62_2820, ".inst 0x1e622820 (SIMD or floating point)", Class::Simd),
            (0x0000_0000, "udf #0", Class::Undefined),
            (0x0420_0000, ".inst 0x04200000 (SVE)", Class::Sve),
        ] {
            let foreign = of(word, 0x20);
            assert_eq!((foreign.text.as_str(), foreign.class), (text, class), "{word:08x}");
        }
    }

    #[test]
    fn every_word_has_a_text() {
        let mut word = 1u32;
        for _ in 0..200_000 {
            word = word.wrapping_mul(0x9e37_79b9).wrapping_add(0x7f4a_7c15);
            assert!(!of(word, 0xffff_fffc).text.is_empty());
        }
    }
}
