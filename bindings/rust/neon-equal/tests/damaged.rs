//! Damaged objects, lists and options: no panic, and no status but the one that the answer has. Seeded, so that a failure comes again. DAMAGED names
//! another number of cases than 100,000.
use std::ffi::OsString;
use std::io::Write;
use std::path::PathBuf;

use neon_equal::{Streams, run};
use neon_terms::{Record, Registers};

/// Runs of each pair: enough to tell most routines apart.
const STARTS: usize = 8;

fn cases() -> usize {
    let cases = std::env::var("DAMAGED").map_or(100_000, |text| text.parse().expect("DAMAGED is a number"));
    assert!(cases > 0, "no case is no test");
    cases
}

/// SplitMix64.
struct Random(u64);

impl Random {
    fn next(&mut self) -> u64 {
        self.0 = self.0.wrapping_add(0x9e37_79b9_7f4a_7c15);
        let z = (self.0 ^ self.0 >> 30).wrapping_mul(0xbf58_476d_1ce4_e5b9);
        let z = (z ^ z >> 27).wrapping_mul(0x94d0_49bb_1331_11eb);
        z ^ z >> 31
    }

    fn below(&mut self, bound: usize) -> usize {
        (self.next() % bound.max(1) as u64) as usize
    }

    fn one_of<'a, T>(&mut self, items: &'a [T]) -> &'a T {
        &items[self.below(items.len())]
    }
}

fn folder() -> PathBuf {
    PathBuf::from(env!("CARGO_MANIFEST_DIR")).join("../../../tests/programs/stored/objects")
}

/// The stored objects, by name.
fn objects() -> Vec<(PathBuf, Vec<u8>)> {
    let files = std::fs::read_dir(folder()).expect("the stored objects").map(|entry| entry.expect("a file").path());
    let read = files.map(|path| (path.clone(), std::fs::read(path).expect("a file")));
    let mut objects: Vec<(PathBuf, Vec<u8>)> = read.filter(|(_, bytes)| bytes.starts_with(b"\x7fELF")).collect();
    objects.sort();
    assert!(objects.len() >= 6, "{} stored objects", objects.len());
    objects
}

/// What a call wrote, and its status.
struct Called {
    status: u8,
    out: String,
    error: String,
}

fn call(args: &[OsString], input: &[u8]) -> Called {
    let (mut out, mut error) = (Vec::new(), Vec::new());
    let status = run(args.iter().cloned(), &mut &input[..], &mut Streams { out: &mut out, error: &mut error }, Some(STARTS));
    let text = |bytes| String::from_utf8(bytes).expect("what is written is text");
    Called { status, out: text(out), error: text(error) }
}

fn words(text: &[&str]) -> Vec<OsString> {
    text.iter().map(OsString::from).collect()
}

impl Called {
    /// Panics if the status is not the answer's or there is no message.
    fn check(&self, what: &dyn std::fmt::Debug) {
        let last = self.out.lines().last();
        let said = self.error.lines().all(|line| line.starts_with("neon-equal: ")) && !self.error.is_empty();
        let right = match self.status {
            0 => last == Some("equal") && self.error.is_empty(),
            1 => last == Some("differs") && self.error.is_empty(),
            2 => last == Some("not decided") && self.error.is_empty(),
            3 => said && (self.out.is_empty() || last == Some("refused")),
            _ => false,
        };
        assert!(right, "status {} of {what:?}:\n{}{}", self.status, self.out, self.error);
    }
}

/// Bytes with some damage: some of them changed, cut off, doubled or put elsewhere.
fn damage(r: &mut Random, bytes: &[u8]) -> Vec<u8> {
    let mut bytes = bytes.to_vec();
    for _ in 0..1 + r.below(4) {
        let at = r.below(bytes.len());
        match r.below(10) {
            0 => bytes.truncate(at),
            1 => {
                let (from, length) = (r.below(bytes.len()), r.below(64));
                let piece: Vec<u8> = bytes.iter().skip(from).take(length).copied().collect();
                bytes.splice(at..at, piece);
            }
            2 => {
                // a field of 8 bytes of a header or a table becomes a bound
                let value = *r.one_of(&[0, 1, 3, 4, 24, 64, 0xffff, u64::from(u32::MAX), u64::MAX, 1 << 63, bytes.len() as u64]);
                for (byte, new) in bytes.iter_mut().skip(at & !7).zip(value.to_le_bytes()) {
                    *byte = new;
                }
            }
            3 => bytes.iter_mut().skip(at).take(2).for_each(|byte| *byte = 0xff),
            _ if bytes.is_empty() => bytes.push(0x7f),
            _ => bytes[at] = r.next() as u8,
        }
    }
    bytes
}

#[test]
fn objects_that_are_damaged() {
    let objects = objects();
    let mut r = Random(42);
    let mut by_status = [0usize; 4];
    for case in 0..cases() {
        let (_, good) = r.one_of(&objects);
        let (other, _) = r.one_of(&objects);
        let bad = damage(&mut r, good);
        let mut args: Vec<OsString> = vec!["-".into(), other.into(), "--solver".into(), "none".into()];
        if r.below(2) == 0 {
            args.swap(0, 1);
        }
        if r.below(3) == 0 {
            args.extend(words(&["--function", *r.one_of(&["framed", "first", "differs", "clobbers", "loop"])]));
        }
        let called = call(&args, &bad);
        called.check(&(case, &args));
        by_status[usize::from(called.status)] += 1;
    }
    println!("damaged objects by status: {by_status:?}");
    assert!(by_status.iter().all(|count| *count > 0), "{by_status:?}: a status never came");
}

/// The judge of words between the headers of an object: whether each before the last `ret` is one of the 67 operations.
fn judged(words: &[u32]) -> Option<Vec<Record>> {
    let (last, body) = words.split_last()?;
    (*last == 0xd65f_03c0).then_some(())?;
    body.iter().map(|word| Record::from_word(*word).ok()).collect()
}

/// Only the code is changed: then what has to come is known without reading the object.
#[test]
fn objects_with_other_code() {
    let path = folder().join("lib.o");
    let good = std::fs::read(&path).expect("a stored object");
    let code = [0x00, 0x0c, 0x61, 0x4e, 0xc0, 0x03, 0x5f, 0xd6];
    let at = good.windows(8).position(|bytes| bytes == code).expect("the code of `first`");
    let ours = [0x4e61_0c00u32, 0x4e61_0c20, 0x4e60_0c20, 0x6e61_0c00, 0x4f7f_0400, 0x6f7f_0400, 0x4e20_5820, 0xd65f_03c0, 0x4f00_07e1, 0];
    let mut r = Random(43);
    let mut by_status = [0usize; 4];
    for _ in 0..cases() / 10 {
        let words = [*r.one_of(&ours) ^ if r.below(4) == 0 { 1 << r.below(32) } else { 0 }, if r.below(8) == 0 { *r.one_of(&ours) } else { 0xd65f_03c0 }];
        let mut bad = good.clone();
        bad[at..at + 8].copy_from_slice(&words.map(u32::to_le_bytes).concat());
        let args: Vec<OsString> = vec![path.clone().into(), "-".into(), "--function".into(), "first".into(), "--solver".into(), "none".into()];
        let called = call(&args, &bad);
        called.check(&words);
        by_status[usize::from(called.status)] += 1;
        // begin and end of a routine are no instructions of it: `ret` first, zeros after it, are an empty routine
        let records = if words[0] == 0xd65f_03c0 && (words[1] >> 16 == 0 || words[1] == 0xd503_201f) { Some(Vec::new()) } else { judged(&words) };
        let Some(records) = records else {
            assert_eq!(called.status, 3, "{words:08x?}");
            continue;
        };
        let old = Record::from_word(0x4e61_0c00).expect("sqadd");
        let differs = (0..200).any(|_| {
            let start = Registers(std::array::from_fn(|_| u128::from(r.next()) << 64 | u128::from(r.next())));
            let (mut one, mut other) = (start, start);
            one.run(&[old]).expect("sqadd is taken");
            other.run(&records).expect("the records are taken");
            one.0[0] != other.0[0]
        });
        match called.status {
            0 => assert!(!differs, "{words:08x?} is not equal"),
            1 | 2 => assert!(differs || called.status == 2 || records != [old], "{words:08x?} is equal"),
            _ => panic!("{words:08x?} was refused: {}", called.error),
        }
    }
    assert!([0, 1, 3].iter().all(|status| by_status[*status] > 0), "{by_status:?}: a status never came");
}

/// What follows the two objects on a line that is good.
const GOOD: [&str; 8] = ["framed", "nothing", "differs", "half d0", "temporaries", "upper", "clobbers --registers v0", "loop --from 4,8 --to 12,16"];

#[test]
fn lists_that_are_damaged() {
    let names: Vec<String> = objects().iter().map(|(path, _)| path.display().to_string()).collect();
    let mut r = Random(44);
    let mut by_status = [0usize; 4];
    for case in 0..cases() / 4 {
        let mut list = String::new();
        for _ in 0..r.below(4) {
            if r.below(4) != 0 {
                list += &format!("{0}/old.o {0}/new.o {1}\n", folder().display(), r.one_of(&GOOD));
                continue;
            }
            let (old, new) = (r.one_of(&names), r.one_of(&names));
            let rest = r.one_of(&["", " first", " framed v0", " half d0", " nothing", " differs --registers v0", " # no comment", " f v9", " \"first\" d0"]);
            list += &format!("{old} {new}{rest}\n{}", r.one_of(&["", "\n", "# a comment\n", "x y\n"]));
        }
        let mut bytes = list.into_bytes();
        if r.below(2) == 0 {
            for _ in 0..1 + r.below(3) {
                let at = r.below(bytes.len());
                match r.below(3) {
                    0 => bytes.insert(at, *r.one_of(b" \"-#\n\0\xff=v")),
                    _ if bytes.is_empty() => {}
                    1 => _ = bytes.remove(at),
                    _ => bytes[at] = *r.one_of(b" \"-#\n\t0\x80:"),
                }
            }
        }
        let mut args = words(&["--list", "-", "--solver", "none"]);
        args.extend(r.one_of(&["", "-j 3", "--json", "--result v0", "--explain --json"]).split_whitespace().map(OsString::from));
        let called = call(&args, &bytes);
        let what = (case, &args, String::from_utf8_lossy(&bytes));
        let last = called.out.lines().last().unwrap_or_default();
        let whole = last.contains(" pairs: ") || last.contains(" pair: ") || last.contains("\"type\":\"all\"");
        match called.status {
            3 if called.out.is_empty() => assert!(called.error.starts_with("neon-equal: "), "{what:?}"),
            0..=3 => assert!(whole && called.error.is_empty(), "{what:?}: {} {}", called.out, called.error),
            _ => panic!("status {} of {what:?}", called.status),
        }
        // the worst of all pairs
        let count = |word: &str| last.contains(&format!(" {word}")) && !last.contains(&format!(" 0 {word}"));
        if last.contains(" pair") {
            let worst = if count("refused") { 3 } else if count("differ") { 1 } else if count("not decided") { 2 } else { 0 };
            assert_eq!(called.status, worst, "{what:?}: {last}");
        }
        by_status[usize::from(called.status)] += 1;
    }
    println!("damaged lists by status: {by_status:?}");
    assert!([0, 1, 2, 3].iter().all(|status| by_status[*status] > 0), "{by_status:?}: a status never came");
}

#[test]
fn options_that_are_damaged() {
    use std::os::unix::ffi::OsStringExt;
    let objects = objects();
    let mut vocabulary: Vec<OsString> = objects.iter().map(|(path, _)| path.into()).collect();
    vocabulary.extend(words(&[
        "-", "--", "--function", "--function=first", "first", "differs", "--from", "--to", "0x4", "8", "4,8", "0xffffffffffffffff", "--words", "--records",
        "--result", "--result=d0", "d0", "v0-v3", "v31", "--registers", "--registers=v0", "--lanes", "--lanes=8", "16", "--seconds", "--seconds=1", "--json",
        "--explain", "--report=/dev/null", "--replay=/dev/null", "-j", "-j2", "-h", "--help", "-V", "--version", "--colour", "-x", "", " ", "=", "--=", "v0,",
        "99999999999999999999",
    ]));
    vocabulary.push(OsString::from_vec(vec![0xff, 0xfe]));
    vocabulary.push(OsString::from_vec(b"--function=\xff".to_vec()));
    let stdin = &objects[0].1;
    let mut r = Random(45);
    let mut by_status = [0usize; 4];
    for case in 0..cases() / 4 {
        let mut args = words(&["--solver", "none"]);
        if r.below(3) == 0 {
            args.extend([0, 0].map(|_| OsString::from(&r.one_of(&objects).0)));
        }
        for _ in 0..r.below(6) {
            args.push(r.one_of(&vocabulary).clone());
        }
        let called = call(&args, stdin);
        by_status[usize::from(called.status)] += 1;
        let what = (case, &args);
        if called.out.starts_with("neon-equal ") {
            // the help or the version
            assert!(called.status == 0 && called.error.is_empty(), "{what:?}");
        } else if called.out.starts_with("{\"type\"") {
            assert!(called.out.lines().last().is_some_and(|last| last.contains(&format!("\"status\":{}", called.status))), "{what:?}: {}", called.out);
        } else {
            called.check(&what);
        }
    }
    println!("damaged options by status: {by_status:?}");
    assert!([0, 1, 3].iter().all(|status| by_status[*status] > 0), "{by_status:?}: a status never came");
}

/// A stream that accepts a number of bytes and then fails.
struct Full(usize);

impl Write for Full {
    fn write(&mut self, bytes: &[u8]) -> std::io::Result<usize> {
        if self.0 == 0 {
            return Err(std::io::Error::other("full"));
        }
        let taken = bytes.len().min(self.0);
        self.0 -= taken;
        Ok(taken)
    }

    fn flush(&mut self) -> std::io::Result<()> {
        Ok(())
    }
}

#[test]
fn outputs_that_fail() {
    let object = folder().join("lib.o");
    for extra in [&[][..], &["--json"], &["--explain"]] {
        let mut args: Vec<OsString> = vec![object.clone().into(), object.clone().into(), "--function".into(), "first".into()];
        args.extend(words(extra));
        let length = call(&args, b"").out.len();
        assert!(length > 0);
        for room in 0..length {
            let mut error = Vec::new();
            let status = run(args.iter().cloned(), &mut std::io::empty(), &mut Streams { out: &mut Full(room), error: &mut error }, Some(STARTS));
            assert_eq!((status, String::from_utf8_lossy(&error).as_ref()), (3, "neon-equal: standard output: full\n"), "{room} of {length}");
        }
    }
}
