//! Files as routines: functions of objects, instruction words, and records in columns, told apart by their first bytes.
use std::fs::File;
use std::io::{self, Read};
use std::path::Path;
use std::sync::Mutex;

use neon_terms::Block;

use crate::args::{Choice, Entry};
use crate::elf::{self, Object};
use crate::frame::{self, Body, Refused};
use crate::pair::{Places, Routine};

/// First bytes of files that are not objects but are often given as such. As words they would be many strange instructions.
const OTHERS: [(&[u8], &str); 4] = [
    (b"!<arch>\n", "an archive"),
    (b"!<thin>\n", "an archive"),
    (b"BC\xc0\xde", "LLVM bitcode"),
    (b"\xcf\xfa\xed\xfe", "a Mach-O file"),
];

/// What a file has.
#[derive(Debug, Clone, Copy, PartialEq, Eq)]
pub enum Format {
    Object,
    Words,
    /// A record on each line, in columns.
    Lines,
}

impl Format {
    /// By the first four bytes. No instruction of ours has a blank or a digit in its last byte, as columns have.
    fn of(front: &[u8]) -> Self {
        if front == elf::MAGIC {
            Self::Object
        } else if !front.is_empty() && front.iter().all(|byte| byte.is_ascii_digit() || *byte == b' ') {
            Self::Lines
        } else {
            Self::Words
        }
    }

    /// No longer file is read, so that one without an end is refused too.
    fn most_bytes(self) -> usize {
        match self {
            Self::Object => 1 << 30,
            Self::Words | Self::Lines => 1 << 16,
        }
    }
}

/// Why a file or a function is refused.
#[derive(Debug, Clone, PartialEq, Eq)]
pub struct Refusal {
    /// The file, or the file and the function.
    pub place: String,
    /// One reason or more.
    pub reasons: Vec<Refused>,
}

impl Refusal {
    fn new(place: &str, reason: impl Into<String>) -> Self {
        Self { place: place.to_string(), reasons: vec![Refused::whole(reason)] }
    }

    /// One that is of neither file.
    pub fn of_pair(reason: String) -> Self {
        Self::new("", reason)
    }

    fn head(&self) -> String {
        if self.place.is_empty() { String::new() } else { format!("{}: ", self.place) }
    }

    /// A line for each reason.
    pub fn lines(&self) -> impl Iterator<Item = String> {
        let head = self.head();
        self.reasons.iter().map(move |reason| format!("{head}{reason}"))
    }

    /// All reasons in one line.
    pub fn line(&self) -> String {
        let reasons: Vec<String> = self.reasons.iter().map(Refused::to_string).collect();
        format!("{}{}", self.head(), reasons.join("; "))
    }
}

/// Standard input, which one file may be.
pub type Input<'i> = Mutex<&'i mut (dyn Read + Send)>;

/// A file that was read, and the function that was named with it.
struct Source {
    name: String,
    function: Option<String>,
    format: Format,
    bytes: Vec<u8>,
}

impl Source {
    fn object(&self) -> Result<Option<Object<'_>>, Refusal> {
        match self.format {
            Format::Object => Object::read(&self.bytes).map(Some).map_err(|reason| Refusal::new(&self.name, reason)),
            Format::Words | Format::Lines => Ok(None),
        }
    }
}

/// A file's name, and after a colon that of a function. A file whose own name has the colon comes first.
fn split(argument: &Path) -> (String, Option<String>) {
    let text = argument.to_string_lossy().into_owned();
    let named = text.rsplit_once(':').filter(|(file, function)| !file.is_empty() && !function.is_empty() && !argument.exists());
    match named {
        Some((file, function)) => (file.to_string(), Some(function.to_string())),
        None => (text, None),
    }
}

fn read(argument: &Path, forced: Option<Format>, input: &Input) -> Result<Source, Refusal> {
    let (name, function) = split(argument);
    let shown = elf::on_a_line(&name);
    let failed = |error: io::Error| Refusal::new(&shown, error.to_string());
    let (front, format, bytes) = if name == "-" {
        let mut input = input.lock().expect("no reader panics");
        take(&mut **input, forced).map_err(failed)?
    } else {
        // a name that is not text is taken as it is
        let path = if function.is_some() { Path::new(&name) } else { argument };
        take(&mut File::open(path).map_err(failed)?, forced).map_err(failed)?
    };
    if bytes.len() > format.most_bytes() {
        return Err(Refusal::new(&shown, format!("it has more than {} bytes", format.most_bytes())));
    }
    if front == 0 && forced.is_none() {
        return Err(Refusal::new(&shown, "empty; --words or --records say that an empty routine is meant"));
    }
    if let (None, Some((_, what))) = (forced, OTHERS.iter().find(|(magic, _)| bytes.starts_with(magic))) {
        return Err(Refusal::new(&shown, format!("{what}, no object")));
    }
    if forced.is_some() && Format::of(&bytes[..front]) == Format::Object {
        return Err(Refusal::new(&shown, "an object, neither words nor records"));
    }
    Ok(Source { name: shown, function, format, bytes })
}

/// How many bytes tell the format, the format, and all bytes or one more than may be.
fn take(reader: &mut (impl Read + ?Sized), forced: Option<Format>) -> io::Result<(usize, Format, Vec<u8>)> {
    let mut bytes = Vec::new();
    reader.take(4).read_to_end(&mut bytes)?;
    let front = bytes.len();
    let format = forced.unwrap_or_else(|| Format::of(&bytes));
    reader.take((format.most_bytes() + 1 - front) as u64).read_to_end(&mut bytes)?;
    Ok((front, format, bytes))
}

/// Two routines that are compared, or why they are not; and their names.
pub struct Found {
    pub old: String,
    pub new: String,
    pub routines: Result<(Routine, Routine), Vec<Refusal>>,
}

/// What a pair of files has to compare.
pub struct Pairing {
    pub found: Vec<Found>,
    /// Whether there may be several: then each has its name.
    pub several: bool,
    /// Functions that one of two objects has alone, with the object's name.
    pub alone: Vec<(String, String)>,
}

/// Both, or why either is not there.
fn both<A, B>(old: Result<A, Refusal>, new: Result<B, Refusal>) -> Result<(A, B), Vec<Refusal>> {
    match (old, new) {
        (Ok(old), Ok(new)) => Ok((old, new)),
        (old, new) => Err([old.err(), new.err()].into_iter().flatten().collect()),
    }
}

/// Reads both files and finds their routines.
pub fn pairing(entry: &Entry, input: &Input) -> Result<Pairing, Vec<Refusal>> {
    let choice = &entry.choice;
    if [&entry.old, &entry.new].iter().all(|path| split(path).0 == "-") {
        return Err(vec![Refusal::new("-", "standard input can be one of the two files only")]);
    }
    let (old, new) = both(read(&entry.old, choice.format, input), read(&entry.new, choice.format, input))?;
    // an object borrows the bytes of its source
    let (old_object, new_object) = both(old.object(), new.object())?;
    let names = names(&old, old_object.as_ref(), &new, new_object.as_ref(), choice).map_err(|refusal| vec![refusal])?;
    let found = names.pairs.iter().map(|[f, g]| Found {
        old: place(&old, f.as_deref()),
        new: place(&new, g.as_deref()),
        routines: both(
            routine(&old, old_object.as_ref(), f.as_deref(), choice, 0),
            routine(&new, new_object.as_ref(), g.as_deref(), choice, 1),
        ),
    });
    Ok(Pairing { found: found.collect(), several: names.several, alone: names.alone })
}

fn place(source: &Source, function: Option<&str>) -> String {
    function.map_or_else(|| source.name.clone(), |function| format!("{}:{function}", source.name))
}

/// Which functions of two files are compared; none of a file that is no object.
struct Names {
    pairs: Vec<[Option<String>; 2]>,
    several: bool,
    alone: Vec<(String, String)>,
}

impl Names {
    fn one(old: Option<String>, new: Option<String>) -> Self {
        Self { pairs: vec![[old, new]], several: false, alone: Vec::new() }
    }
}

/// The function that a call names for a file.
fn named(source: &Source, object: Option<&Object>, choice: &Choice) -> Result<Option<String>, Refusal> {
    match (&source.function, &choice.function) {
        (Some(function), Some(other)) if function != other => Err(Refusal::new(&source.name, format!("both {function} and --function {other} are named"))),
        (Some(function), _) | (_, Some(function)) if object.is_none() => {
            Err(Refusal::new(&source.name, format!("no object, so it has no function {function}")))
        }
        (function, other) => Ok(function.clone().or_else(|| other.clone())),
    }
}

/// The only function of an object.
fn only(source: &Source, object: &Object) -> Result<String, Refusal> {
    match object.functions() {
        [one] => Ok(one.name.clone()),
        _ => Err(Refusal::new(&source.name, format!("which function? {}", object.listed()))),
    }
}

fn names(old: &Source, old_object: Option<&Object>, new: &Source, new_object: Option<&Object>, choice: &Choice) -> Result<Names, Refusal> {
    let (f, g) = (named(old, old_object, choice)?, named(new, new_object, choice)?);
    let (old_object, new_object) = match (old_object, new_object) {
        (Some(old_object), Some(new_object)) => (old_object, new_object),
        (Some(object), None) => return Ok(Names::one(Some(f.map_or_else(|| only(old, object), Ok)?), None)),
        (None, Some(object)) => return Ok(Names::one(None, Some(g.map_or_else(|| only(new, object), Ok)?))),
        (None, None) => return Ok(Names::one(None, None)),
    };
    if f.is_some() || g.is_some() {
        let (old, new) = (f.clone().or_else(|| g.clone()), g.or(f));
        return Ok(Names::one(old, new));
    }
    let list = |object: &Object| object.functions().iter().map(|function| function.name.clone()).collect::<std::collections::BTreeSet<_>>();
    let (in_old, in_new) = (list(old_object), list(new_object));
    if let ([one], [other]) = (old_object.functions(), new_object.functions()) {
        return Ok(Names::one(Some(one.name.clone()), Some(other.name.clone())));
    }
    let pairs: Vec<[Option<String>; 2]> = in_old.intersection(&in_new).map(|name| [Some(name.clone()), Some(name.clone())]).collect();
    if pairs.is_empty() {
        return Err(Refusal::new(&old.name, format!("no function in common with {}; {}", new.name, old_object.listed())));
    }
    let alone = in_old.difference(&in_new).map(|name| (old.name.clone(), name.clone()));
    let alone = alone.chain(in_new.difference(&in_old).map(|name| (new.name.clone(), name.clone()))).collect();
    Ok(Names { pairs, several: true, alone })
}

/// The routine of a file, or of a function of it; `side` is 0 for the old and 1 for the new one.
fn routine(source: &Source, object: Option<&Object>, function: Option<&str>, choice: &Choice, side: usize) -> Result<Routine, Refusal> {
    let name = place(source, function);
    let refused = |reasons: Vec<Refused>| Refusal { place: name.clone(), reasons };
    let (body, places, is_function) = match (object, function, source.format) {
        (Some(object), Some(function), _) => {
            let (body, whole) = of_function(object, function, choice, side).map_err(refused)?;
            (body.records, Places::Bytes(body.first), whole)
        }
        (_, _, Format::Lines) => {
            if choice.from.or(choice.to).is_some() {
                return Err(Refusal::new(&name, "records in columns have no offsets for --from and --to"));
            }
            (lines(&source.bytes).map_err(|reason| refused(vec![reason]))?, Places::Lines, false)
        }
        _ => {
            let [from, to] = part(source.bytes.len() as u64, choice, side).map_err(|reason| refused(vec![reason]))?;
            let body = frame::body(&source.bytes[from as usize..to as usize], from, false).map_err(refused)?;
            (body.records, Places::Bytes(body.first), false)
        }
    };
    // of what is read from words, no record is refused
    let by_number = |refusal: neon_terms::Refusal| {
        let at = refusal.position.map_or_else(String::new, |position| format!(": {}", at_line(&source.bytes, position)));
        refused(vec![Refused::whole(format!("{} ({}){at}", refusal.number.code(), refusal.number))])
    };
    let offset = |word: &str, offsets: Option<[u64; 2]>| offsets.map_or_else(String::new, |offsets| format!(" {word} 0x{:x}", offsets[side]));
    let shown = format!("{name}{}{}", offset("from", choice.from), offset("to", choice.to));
    Routine::new(shown, is_function, places, body).map_err(by_number)
}

/// The part that --from and --to select, of code of the given length.
fn part(length: u64, choice: &Choice, side: usize) -> Result<[u64; 2], Refused> {
    let from = choice.from.map_or(0, |from| from[side]);
    let to = choice.to.map_or(length, |to| to[side]);
    if from > to || to > length || choice.from.is_some() && from == to {
        return Err(Refused::whole(format!("0x{from:x} to 0x{to:x} is no part of its 0x{length:x} bytes")));
    }
    Ok([from, to])
}

/// The body of a function, and whether it is the whole function.
fn of_function(object: &Object, name: &str, choice: &Choice, side: usize) -> Result<(Body, bool), Vec<Refused>> {
    let one = |reason: String| vec![Refused::whole(reason)];
    let function = object.function(name).map_err(one)?;
    let code = object.code(function).map_err(one)?;
    let [from, to] = part(code.len() as u64, choice, side).map_err(|reason| vec![reason])?;
    let whole = choice.from.or(choice.to).is_none();
    let marks = object.marks(function, [from, to]).map_err(one)?;
    let marks: Vec<Refused> = marks.into_iter().map(|(at, mark)| marked(code, at, &mark)).collect();
    let part = &code[from as usize..to as usize];
    match frame::body(part, from, whole) {
        Ok(body) if marks.is_empty() => Ok((body, whole)),
        body => {
            let mut reasons = body.err().unwrap_or_default();
            for mark in marks {
                // a place is named once, with all that is to be said of it
                match reasons.iter_mut().find(|reason| reason.offset == mark.offset) {
                    Some(reason) => reason.reason = format!("{}; {}", reason.reason, mark.reason),
                    None => reasons.push(mark),
                }
            }
            reasons.sort_by_key(|reason| reason.offset.unwrap_or(u64::MAX));
            Err(reasons)
        }
    }
}

/// What a mark replaces.
fn marked(code: &[u8], at: u64, mark: &elf::Mark) -> Refused {
    let word = usize::try_from(at - at % 4).ok().and_then(|k| code.get(k..k + 4)).map(|word| u32::from_le_bytes([word[0], word[1], word[2], word[3]]));
    let text = match (mark, word) {
        (elf::Mark::Data, Some(word)) => format!(".inst 0x{word:08x}"),
        (_, Some(word)) => frame::text(word, at),
        (_, None) => "no word".to_string(),
    };
    Refused::at(at, text, mark.to_string())
}

/// The records of lines, by the proved reader.
fn lines(bytes: &[u8]) -> Result<Vec<neon_terms::Record>, Refused> {
    let block = Block::from_lines(bytes).map_err(|refusal| {
        let at = refusal.position.map_or_else(String::new, |position| format!(": {}, is not in columns", at_line(bytes, position)));
        Refused::whole(format!("{} ({}){at}", refusal.number.code(), refusal.number))
    })?;
    Ok(block.to_vec())
}

/// A line by its number, counted from 1, and its text. The lines before it have 25 bytes.
fn at_line(bytes: &[u8], position: usize) -> String {
    let rest = bytes.get(25 * position..).unwrap_or_default();
    let end = rest.iter().position(|&byte| byte == b'\n').unwrap_or(rest.len()).min(60);
    format!("line {}, {:?}", position + 1, String::from_utf8_lossy(&rest[..end]))
}

#[cfg(test)]
mod tests {
    use super::*;

    #[test]
    fn formats_by_their_first_bytes() {
        assert_eq!(Format::of(b"\x7fELF"), Format::Object);
        assert_eq!(Format::of(b"   6"), Format::Lines);
        assert_eq!(Format::of(b"6 6 "), Format::Lines);
        assert_eq!(Format::of(&[0x20, 0x04, 0x7f, 0x6f]), Format::Words);
        assert_eq!(Format::of(b""), Format::Words);
        assert_eq!(Format::of(b"\n"), Format::Words);
    }

    #[test]
    fn functions_after_a_colon() {
        assert_eq!(split(Path::new("a.o:f")), ("a.o".to_string(), Some("f".to_string())));
        assert_eq!(split(Path::new("a.o:")), ("a.o:".to_string(), None));
        assert_eq!(split(Path::new("a:b:f")), ("a:b".to_string(), Some("f".to_string())));
        assert_eq!(split(Path::new("-:f")), ("-".to_string(), Some("f".to_string())));
    }
}
