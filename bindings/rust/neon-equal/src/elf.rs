//! ELF objects for AArch64: their functions by symbol and size, the functions' bytes, and what they contain besides plain code.
//! Every place in the file is checked before it is read, so that a damaged file gives an error and nothing else.
use std::fmt;

pub const MAGIC: &[u8; 4] = b"\x7fELF";

const AARCH64: u16 = 183;
/// Kinds of sections.
const PROGBITS: u32 = 1;
const SYMTAB: u32 = 2;
const STRTAB: u32 = 3;
const RELA: u32 = 4;
const REL: u32 = 9;
const DYNSYM: u32 = 11;
const CREL: u32 = 0x4000_0014;
/// Flags of sections.
const EXECUTABLE: u64 = 4;
const COMPRESSED: u64 = 0x800;
/// Kinds of symbols.
const NOTYPE: u8 = 0;
const FUNC: u8 = 2;
const SECTION: u8 = 3;
/// Section numbers from here on have a meaning of their own.
const RESERVED: u16 = 0xff00;
/// Bytes of a name.
const LONGEST_NAME: usize = 1 << 16;

type Read<T> = Result<T, String>;

/// The bytes of a file.
#[derive(Clone, Copy)]
struct Bytes<'a>(&'a [u8]);

impl<'a> Bytes<'a> {
    fn part(self, at: u64, length: u64) -> Read<&'a [u8]> {
        let part = || self.0.get(usize::try_from(at).ok()?..usize::try_from(at.checked_add(length)?).ok()?);
        part().ok_or_else(|| format!("damaged: it has no {length} bytes at 0x{at:x}"))
    }

    fn number<const N: usize>(self, at: u64) -> Read<[u8; N]> {
        Ok(self.part(at, N as u64)?.try_into().expect("a part has the length that was asked for"))
    }

    fn u16(self, at: u64) -> Read<u16> {
        self.number(at).map(u16::from_le_bytes)
    }

    fn u32(self, at: u64) -> Read<u32> {
        self.number(at).map(u32::from_le_bytes)
    }

    fn u64(self, at: u64) -> Read<u64> {
        self.number(at).map(u64::from_le_bytes)
    }
}

#[derive(Clone)]
struct Section {
    name: u32,
    kind: u32,
    flags: u64,
    address: u64,
    offset: u64,
    size: u64,
    link: u32,
    info: u32,
}

impl Section {
    fn read(file: Bytes, at: u64) -> Read<Self> {
        file.part(at, 64)?;
        let (word, long) = (|k: u64| file.u32(at + k), |k: u64| file.u64(at + k));
        Ok(Self {
            name: word(0)?,
            kind: word(4)?,
            flags: long(8)?,
            address: long(16)?,
            offset: long(24)?,
            size: long(32)?,
            link: word(40)?,
            info: word(44)?,
        })
    }

    fn is_code(&self) -> bool {
        self.kind == PROGBITS && self.flags & EXECUTABLE != 0 && self.flags & COMPRESSED == 0
    }
}

struct Symbol {
    name: u32,
    kind: u8,
    section: u16,
    value: u64,
    size: u64,
}

impl Symbol {
    const SIZE: u64 = 24;

    fn read(file: Bytes, at: u64) -> Read<Self> {
        let entry = file.number::<24>(at)?;
        let (file, kind) = (Bytes(&entry), entry[4] & 15);
        Ok(Self { name: file.u32(0)?, kind, section: file.u16(6)?, value: file.u64(8)?, size: file.u64(16)? })
    }
}

/// A function of an object.
#[derive(Debug, Clone, PartialEq, Eq)]
pub struct Function {
    pub name: String,
    section: usize,
    /// Where it begins in its section.
    start: u64,
    pub size: u64,
}

/// What a function contains besides plain code.
#[derive(Debug, Clone, PartialEq, Eq)]
pub enum Mark {
    /// A mapping symbol `$d`.
    Data,
    /// The linker or the loader puts something there: a kind and what it is about.
    Relocation(u32, String),
}

impl fmt::Display for Mark {
    fn fmt(&self, f: &mut fmt::Formatter<'_>) -> fmt::Result {
        match self {
            Self::Data => f.write_str("data inside the function ($d)"),
            Self::Relocation(kind, about) => match RELOCATIONS.iter().find(|(number, _)| number == kind) {
                Some((_, name)) => write!(f, "relocation R_AARCH64_{name} against {about}"),
                None => write!(f, "relocation {kind} against {about}"),
            },
        }
    }
}

/// The relocations that compilers put into code.
const RELOCATIONS: [(u32, &str); 24] = [
    (257, "ABS64"), (258, "ABS32"), (261, "PREL32"), (263, "MOVW_UABS_G0"), (264, "MOVW_UABS_G0_NC"), (265, "MOVW_UABS_G1"),
    (266, "MOVW_UABS_G1_NC"), (273, "LD_PREL_LO19"), (274, "ADR_PREL_LO21"), (275, "ADR_PREL_PG_HI21"), (276, "ADR_PREL_PG_HI21_NC"),
    (277, "ADD_ABS_LO12_NC"), (278, "LDST8_ABS_LO12_NC"), (279, "TSTBR14"), (280, "CONDBR19"), (282, "JUMP26"), (283, "CALL26"),
    (284, "LDST16_ABS_LO12_NC"), (285, "LDST32_ABS_LO12_NC"), (286, "LDST64_ABS_LO12_NC"), (299, "LDST128_ABS_LO12_NC"),
    (311, "ADR_GOT_PAGE"), (312, "LD64_GOT_LO12_NC"), (313, "LD64_GOTPAGE_LO15"),
];

struct Relocation {
    section: usize,
    /// Where it is in that section.
    at: u64,
    kind: u32,
    /// The table of its symbol, and the symbol's number.
    symbol: (usize, u64),
}

impl Relocation {
    /// Those of instructions change four bytes; others may change eight.
    fn bytes(&self) -> u64 {
        if (263..1024).contains(&self.kind) { 4 } else { 8 }
    }
}

pub struct Object<'a> {
    file: Bytes<'a>,
    /// Whether values are addresses, as in a program, and not places in sections.
    linked: bool,
    sections: Vec<Section>,
    /// The section with the names of sections.
    names: usize,
    functions: Vec<Function>,
    /// Mapping symbols: section, place there, and whether data begins.
    mapping: Vec<(usize, u64, bool)>,
    relocations: Vec<Relocation>,
    /// Sections whose relocations are in a form that is not read.
    unread: Vec<usize>,
}

impl<'a> Object<'a> {
    pub fn read(bytes: &'a [u8]) -> Read<Self> {
        let file = Bytes(bytes);
        if file.part(0, 4)? != MAGIC {
            return Err("no ELF file".to_string());
        }
        let head = file.part(0, 64)?;
        if (head[4], head[5]) != (2, 1) {
            return Err("an ELF file that is not of 64 bits, little endian".to_string());
        }
        if file.u16(18)? != AARCH64 {
            return Err(format!("an ELF file for another machine than AArch64: {}", file.u16(18)?));
        }
        let linked = match file.u16(16)? {
            1 => false,
            2 | 3 => true,
            kind => return Err(format!("an ELF file that is neither relocatable, executable nor shared: {kind}")),
        };
        let sections = Self::sections(file)?;
        let names = usize::from(file.u16(62)?);
        let mut object = Self { file, linked, sections, names, functions: Vec::new(), mapping: Vec::new(), relocations: Vec::new(), unread: Vec::new() };
        object.read_symbols()?;
        object.read_relocations()?;
        Ok(object)
    }

    fn sections(file: Bytes) -> Read<Vec<Section>> {
        let (at, entry) = (file.u64(40)?, file.u16(58)?);
        if at == 0 {
            return Err("it has no section headers".to_string());
        }
        if entry != 64 {
            return Err(format!("damaged: section headers of {entry} bytes"));
        }
        // a number of sections that does not fit is in section 0
        let count = match file.u16(60)? {
            0 => Section::read(file, at)?.size,
            count => count.into(),
        };
        file.part(at, count.saturating_mul(64))?;
        (0..count).map(|k| Section::read(file, at + 64 * k)).collect()
    }

    /// The name at a place in a section of names.
    fn name(&self, section: usize, at: u32) -> Read<String> {
        let names = self.sections.get(section).filter(|names| names.kind == STRTAB).ok_or("damaged: no section of names")?;
        let bytes = self.file.part(names.offset, names.size)?;
        let rest = bytes.get(at as usize..).ok_or_else(|| format!("damaged: no name at 0x{at:x}"))?;
        let end = rest.iter().take(LONGEST_NAME).position(|&byte| byte == 0).ok_or("damaged: a name without an end")?;
        Ok(on_a_line(&String::from_utf8_lossy(&rest[..end])))
    }

    /// Where a value is in its section.
    fn place(&self, section: usize, value: u64) -> Option<u64> {
        if self.linked { value.checked_sub(self.sections[section].address) } else { Some(value) }
    }

    /// The functions and the mapping symbols. Together their names are not much longer than the file, so that they are read in its length's time.
    fn read_symbols(&mut self) -> Read<()> {
        let of = |kind: u32| self.sections.iter().position(|section| section.kind == kind);
        let table = of(SYMTAB).or_else(|| of(DYNSYM)).ok_or("it has no symbols")?;
        let (offset, size, names) = (self.sections[table].offset, self.sections[table].size, self.sections[table].link as usize);
        self.file.part(offset, size)?;
        let mut left = 16 * self.file.0.len();
        for k in 0..size / Symbol::SIZE {
            let symbol = Symbol::read(self.file, offset + Symbol::SIZE * k)?;
            let section = usize::from(symbol.section);
            if symbol.section == 0 || symbol.section >= RESERVED || !matches!(symbol.kind, NOTYPE | FUNC) {
                continue;
            }
            let name = self.name(names, symbol.name)?;
            left = left.checked_sub(name.len()).ok_or("damaged: more names than bytes")?;
            if section >= self.sections.len() {
                return Err(format!("damaged: {name} is in section {section}, which is not there"));
            }
            let place = self.place(section, symbol.value);
            match place {
                Some(start) if symbol.kind == FUNC => self.functions.push(Function { name, section, start, size: symbol.size }),
                Some(start) if is_mapping(&name) => self.mapping.push((section, start, name.starts_with("$d"))),
                None if symbol.kind == FUNC => return Err(format!("damaged: {name} begins before its section")),
                _ => {}
            }
        }
        self.mapping.sort_unstable();
        self.functions.sort_by(|a, b| (&a.name, a.section, a.start, a.size).cmp(&(&b.name, b.section, b.start, b.size)));
        self.functions.dedup();
        Ok(())
    }

    /// The relocations of code. Together their sections are no longer than the file, so that they are read in its length's time.
    fn read_relocations(&mut self) -> Read<()> {
        let mut length = 0u64;
        let mut code: Vec<(u64, usize)> = (0..self.sections.len()).filter(|&k| self.sections[k].is_code()).map(|k| (self.sections[k].address, k)).collect();
        code.sort_unstable();
        for k in 0..self.sections.len() {
            let table = self.sections[k].clone();
            if table.kind == CREL {
                self.unread.push(table.info as usize);
            }
            let entry = match table.kind {
                RELA => 24,
                REL => 16,
                _ => continue,
            };
            length = length.saturating_add(table.size);
            if length > self.file.0.len() as u64 {
                return Err("damaged: more relocations than bytes".to_string());
            }
            self.file.part(table.offset, table.size)?;
            for j in 0..table.size / entry {
                let at = table.offset + entry * j;
                let (value, info) = (self.file.u64(at)?, self.file.u64(at + 8)?);
                let Some((section, at)) = self.relocated(&code, table.info as usize, value) else { continue };
                self.relocations.push(Relocation { section, at, kind: info as u32, symbol: (table.link as usize, info >> 32) });
            }
        }
        self.relocations.sort_by_key(|relocation| (relocation.section, relocation.at));
        Ok(())
    }

    /// The section of code that a relocation is in, and where; None for one that is in no code. `code` has the sections of code by address.
    fn relocated(&self, code: &[(u64, usize)], section: usize, value: u64) -> Option<(usize, u64)> {
        if !self.linked {
            return self.sections.get(section).filter(|section| section.is_code()).map(|_| (section, value));
        }
        let (address, section) = *code[..code.partition_point(|(address, _)| *address <= value)].last()?;
        Some((section, value - address)).filter(|(_, at)| *at < self.sections[section].size)
    }

    /// By name.
    pub fn functions(&self) -> &[Function] {
        &self.functions
    }

    /// The one function of a name.
    pub fn function(&self, name: &str) -> Read<&Function> {
        let first = self.functions.partition_point(|function| function.name.as_str() < name);
        let named = self.functions[first..].iter().take_while(|function| function.name == name).count();
        match &self.functions[first..first + named] {
            [one] => Ok(one),
            [] => Err(format!("there is no function {name}; {}", self.listed())),
            _ => Err(format!("{named} functions are named {name}")),
        }
    }

    /// What functions there are, for a message.
    pub fn listed(&self) -> String {
        let names: Vec<&str> = self.functions.iter().map(|function| function.name.as_str()).collect();
        match names[..] {
            [] => "it has no function".to_string(),
            [one] => format!("it has {one} alone"),
            _ if names.len() <= 12 => format!("it has {}", names.join(", ")),
            _ => format!("it has {} and {} more", names[..12].join(", "), names.len() - 12),
        }
    }

    /// The bytes of a function.
    pub fn code(&self, function: &Function) -> Read<&'a [u8]> {
        let section = &self.sections[function.section];
        if !section.is_code() {
            return Err("its section is not one of plain code".to_string());
        }
        if function.size == 0 {
            return Err("its symbol has size 0: the end is not known; the assembler's .size gives it".to_string());
        }
        if function.start % 4 != 0 || function.size % 4 != 0 {
            return Err(format!("damaged: it begins at 0x{:x} and has {} bytes, which are not whole words", function.start, function.size));
        }
        let fits = function.start.checked_add(function.size).is_some_and(|end| end <= section.size);
        let at = section.offset.checked_add(function.start).filter(|_| fits).ok_or("damaged: it is longer than its section")?;
        self.file.part(at, function.size)
    }

    /// Where a part of a function, from one offset up to another, has something else than plain code: by offset in the function.
    pub fn marks(&self, function: &Function, [from, to]: [u64; 2]) -> Read<Vec<(u64, Mark)>> {
        if self.unread.contains(&function.section) {
            return Err("its section has relocations in a form that is not read (CREL)".to_string());
        }
        let (section, start, end) = (function.section, function.start.saturating_add(from), function.start.saturating_add(to));
        let next = self.mapping.partition_point(|(other, at, _)| (*other, *at) <= (section, start));
        // what was said last before the part holds at its start; of two at one place, data
        let before = self.mapping[..next].last().filter(|(other, _, data)| *other == section && *data).map(|_| start);
        let inside = self.mapping[next..].iter().take_while(|(other, at, _)| *other == section && *at < end);
        let inside = inside.filter(|(.., data)| *data).map(|(_, at, _)| *at);
        let mut marks: Vec<(u64, Mark)> = before.into_iter().chain(inside).map(|at| (at, Mark::Data)).collect();
        // one of 8 bytes may begin before the part
        let first = self.relocations.partition_point(|r| (r.section, r.at) < (section, start.saturating_sub(7)));
        let near = self.relocations[first..].iter().take_while(|r| r.section == section && r.at < end);
        for relocation in near.filter(|r| r.at.saturating_add(r.bytes()) > start) {
            let about = self.about(relocation)?;
            marks.push((relocation.at.max(start), Mark::Relocation(relocation.kind, about)));
        }
        marks.sort_by_key(|(at, _)| *at);
        Ok(marks.into_iter().map(|(at, mark)| (at - function.start, mark)).collect())
    }

    /// The name of the symbol that a relocation is about, or of its section.
    fn about(&self, relocation: &Relocation) -> Read<String> {
        let (table, number) = relocation.symbol;
        let Some(symbols) = self.sections.get(table).filter(|s| matches!(s.kind, SYMTAB | DYNSYM)) else { return Ok("no symbol".to_string()) };
        let at = number.checked_mul(Symbol::SIZE).filter(|&at| at < symbols.size).ok_or("damaged: a relocation against no symbol")?;
        let symbol = Symbol::read(self.file, symbols.offset.saturating_add(at))?;
        let name = match self.sections.get(usize::from(symbol.section)) {
            Some(section) if symbol.kind == SECTION => self.name(self.names, section.name)?,
            _ => self.name(symbols.link as usize, symbol.name)?,
        };
        Ok(if name.is_empty() { "no symbol".to_string() } else { name })
    }
}

/// A name without what would break a line.
pub fn on_a_line(name: &str) -> String {
    name.replace(char::is_control, "\u{fffd}")
}

/// `$x` and `$d`, with a number after a point or without.
fn is_mapping(name: &str) -> bool {
    let rest = name.strip_prefix("$x").or_else(|| name.strip_prefix("$d"));
    rest.is_some_and(|rest| rest.is_empty() || rest.starts_with('.'))
}
