//! Two routines, and the question about a register after both.
use std::fmt;

use neon_terms::{Arrangement, Kind, Node, Pool, Record, Refusal, Registers, View, form};

/// A register that counts: all of it, or its low half.
#[derive(Debug, Clone, Copy, PartialEq, Eq, PartialOrd, Ord)]
pub struct Register {
    pub number: u8,
    /// d0 in the place of v0.
    pub half: bool,
}

impl Register {
    pub fn bits(self) -> u32 {
        if self.half { 64 } else { 128 }
    }

    /// What of the register counts.
    pub fn of(self, registers: &Registers) -> u128 {
        registers.0[usize::from(self.number)] & u128::MAX >> (128 - self.bits())
    }
}

impl fmt::Display for Register {
    fn fmt(&self, f: &mut fmt::Formatter<'_>) -> fmt::Result {
        write!(f, "{}{}", if self.half { 'd' } else { 'v' }, self.number)
    }
}

/// Bits of a lane.
#[derive(Debug, Clone, Copy, PartialEq, Eq, PartialOrd, Ord)]
pub enum Lane {
    B = 8,
    H = 16,
    S = 32,
    D = 64,
}

impl Lane {
    pub const ALL: [Self; 4] = [Self::B, Self::H, Self::S, Self::D];

    pub fn bits(self) -> u32 {
        self as u32
    }

    pub fn of(bits: u32) -> Option<Self> {
        Self::ALL.into_iter().find(|lane| lane.bits() == bits)
    }

    pub fn letter(self) -> char {
        match self {
            Self::B => 'b',
            Self::H => 'h',
            Self::S => 's',
            Self::D => 'd',
        }
    }
}

/// Where the instructions of a routine are: at bytes from an offset on, or on lines.
#[derive(Debug, Clone, Copy)]
pub enum Places {
    Bytes(u64),
    Lines,
}

/// A routine and the terms of the registers after it.
pub struct Routine {
    /// The file, or the file and the function.
    pub name: String,
    /// Whether the calling convention says what counts.
    pub function: bool,
    places: Places,
    records: Vec<Record>,
    pub pool: Pool,
    registers: [Node; 32],
}

impl Routine {
    pub fn new(name: String, function: bool, places: Places, records: Vec<Record>) -> Result<Self, Refusal> {
        let (pool, registers) = Pool::from_block(&records)?;
        Ok(Self { name, function, places, records, pool, registers })
    }

    /// No instruction: each register stays as it was.
    pub fn nothing() -> Self {
        Self::new("the start".to_string(), false, Places::Lines, Vec::new()).expect("an empty block is accepted")
    }

    pub fn records(&self) -> &[Record] {
        &self.records
    }

    /// The place of an instruction.
    pub fn place(&self, position: usize) -> String {
        match self.places {
            Places::Bytes(first) => format!("0x{:x}", first + 4 * position as u64),
            Places::Lines => format!("line {}", position + 1),
        }
    }

    pub fn node(&self, register: Register) -> Node {
        self.registers[usize::from(register.number)]
    }

    /// The canonical pool of a register's term.
    fn canonical(&self, register: Register) -> Option<Pool> {
        self.pool.canonical(self.node(register)).ok().map(|(pool, _)| pool)
    }

    /// What the routine leaves in the registers.
    pub fn run(&self, start: &Registers) -> Registers {
        let mut registers = *start;
        registers.run(&self.records).expect("the runner takes what the lowering took");
        registers
    }

    pub fn writes(&self, register: u8) -> bool {
        self.records.iter().any(|record| record.d == u64::from(register))
    }

    /// The last instruction that writes a register.
    pub fn last(&self, register: u8) -> Option<&Record> {
        self.records.iter().rev().find(|record| record.d == u64::from(register))
    }

    /// The instructions that a register after the routine depends on, by position.
    pub fn slice(&self, register: u8) -> Vec<usize> {
        let mut needed = 1u32 << register;
        let mut wanted: Vec<usize> = Vec::new();
        for (k, record) in self.records.iter().enumerate().rev() {
            let writes = 1u32.checked_shl(record.d as u32).unwrap_or(0);
            if needed & writes != 0 {
                needed = sources(record).iter().fold(needed & !writes, |needed, source| needed | 1 << source);
                wanted.push(k);
            }
        }
        wanted.reverse();
        wanted
    }

    /// The registers that matter to a register after the routine, bit r for register r.
    fn reads(&self, register: Register) -> u32 {
        self.pool.registers_of(self.node(register)).expect("a register's node is in its pool").set()
    }

    /// The lane of the last instruction that writes a register.
    fn lane(&self, register: Register) -> Option<Lane> {
        Some(match Arrangement::of(self.last(register.number)?.arrangement)? {
            Arrangement::B8 | Arrangement::B16 => Lane::B,
            Arrangement::H4 | Arrangement::H8 => Lane::H,
            Arrangement::S2 | Arrangement::S4 => Lane::S,
            Arrangement::D2 => Lane::D,
        })
    }
}

/// The registers that an instruction reads.
pub fn sources(record: &Record) -> Vec<u8> {
    let Some(form) = form(record.operation, record.arrangement) else { return Vec::new() };
    let read = [(true, record.n), (form.second_source, record.m), (form.reads_destination, record.d)];
    read.into_iter().filter(|(read, _)| *read).filter_map(|(_, register)| u8::try_from(register).ok()).collect()
}

/// The two terms of a register in one pool.
pub struct Question {
    pub pool: Pool,
    pub old: Node,
    pub new: Node,
}

#[derive(Clone, Copy)]
pub struct Pair<'a> {
    pub old: &'a Routine,
    pub new: &'a Routine,
}

impl Pair<'_> {
    /// The instructions of both.
    pub fn len(&self) -> usize {
        self.old.records.len() + self.new.records.len()
    }

    /// Whether a register's terms are the same tree, by their canonical pools. Then its halves are the same too.
    pub fn same(&self, register: Register) -> bool {
        match (self.old.canonical(register), self.new.canonical(register)) {
            (Some(old), Some(new)) => old == new,
            _ => false,
        }
    }

    /// What each routine leaves in a register.
    pub fn results(&self, register: Register, start: &Registers) -> (u128, u128) {
        (register.of(&self.old.run(start)), register.of(&self.new.run(start)))
    }

    /// The registers that matter to a register after either routine, in order.
    pub fn reads(&self, register: Register) -> Vec<u8> {
        let set = self.old.reads(register) | self.new.reads(register);
        (0..32).filter(|r| set >> r & 1 == 1).collect()
    }

    /// The lane of the last instructions, the smaller if they differ: a narrow question is easier.
    pub fn lane(&self, register: Register) -> Lane {
        let lanes = [self.old, self.new].into_iter().filter_map(|routine| routine.lane(register));
        lanes.min().unwrap_or(Lane::D)
    }

    /// Both terms in one pool that has nothing else, each distinct subtree once: what the routines have in common is written once.
    pub fn question(&self, register: Register) -> Result<Question, Refusal> {
        let (both, eq) = Pool::join(&self.old.pool, self.old.node(register), &self.new.pool, self.new.node(register))?;
        let (pool, root) = both.canonical(eq)?;
        match pool.view(root) {
            Some(View { kind: Kind::Eq(old, new), .. }) => Ok(Question { pool, old, new }),
            _ => unreachable!("the root is the Eq of the two terms"),
        }
    }
}
