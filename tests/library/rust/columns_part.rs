//! Routines in columns: the library's reader against a judge that reads document 01's lines one by one.
use crate::Sample;
use crate::blocks_part::{record, spoil};
use crate::judge::Record;
use crate::native::{self, words};
use crate::pools::Rng;

/// Right-justified decimals, without leading zeros, in four columns.
fn field(text: &[u8]) -> Option<u64> {
    let digits = &text[text.iter().take_while(|&&byte| byte == b' ').count()..];
    let plain = !digits.is_empty() && digits.iter().all(u8::is_ascii_digit) && (digits.len() == 1 || digits[0] != b'0');
    plain.then(|| digits.iter().fold(0, |number, digit| 10 * number + u64::from(digit - b'0')))
}

fn line(text: &[u8]) -> Option<Record> {
    let fields: Vec<u64> = text.chunks(4).map(|text| (text.len() == 4).then(|| field(text)).flatten()).collect::<Option<_>>()?;
    fields.try_into().ok()
}

/// Number, count and position, and the records.
fn judged(text: &[u8], entries: usize) -> (u64, usize, usize, Vec<Record>) {
    let mut lines: Vec<&[u8]> = text.split(|&byte| byte == b'\n').collect();
    // what follows the last newline is a line only if it is not empty
    if lines.last().is_some_and(|last| last.is_empty()) {
        lines.pop();
    }
    let records: Vec<Option<Record>> = lines.into_iter().map(line).collect();
    match records.iter().position(Option::is_none) {
        Some(position) => (10, 0, position, vec![]),
        None if entries < 6 * records.len() => (8, 0, 0, vec![]),
        None => (0, records.len(), 0, records.into_iter().flatten().collect()),
    }
}

/// Some lines, most of them whole, and how many entries are lent.
fn case(r: &mut Rng) -> (Vec<u8>, usize) {
    let mut text = Vec::new();
    let count = r.below(12);
    for _ in 0..count {
        let mut records = [record(r, 32)];
        if r.below(4) == 0 {
            spoil(r, &mut records);
        }
        // four columns hold no more
        text.extend(records[0].iter().flat_map(|x| format!("{:4}", x % 10_000).into_bytes()));
        text.push(b'\n');
    }
    if r.below(3) == 0 {
        text.pop();
    }
    for _ in 0..if r.below(2) == 0 { 0 } else { r.below(3) } {
        let at = r.below(text.len() as u64 + 1) as usize;
        match r.below(4) {
            0 => text.truncate(at),
            1 => text.insert(at, r.one_of(b" 0\n9x")),
            _ if at < text.len() => text[at] = r.one_of(b" 0123456789-+\0\r\t\xffA\n"),
            _ => text.extend(b"\n"),
        }
    }
    (text, (6 * count as usize + r.below(8) as usize).saturating_sub(r.below(8) as usize))
}

pub fn main(count: u64) {
    let mut r = Rng(0xa54f_f53a_5f1d_36f1);
    let mut by_number = [0; 3];
    for _ in 0..count {
        let (text, entries) = case(&mut r);
        let (number, done, position, records) = judged(&text, entries);
        let mut got = words(&vec![7; entries]);
        assert_eq!(native::read_lines(&text, &mut got), (number, done, position), "{:?}", String::from_utf8_lossy(&text));
        let (front, rest) = got.items().split_at(6 * done);
        assert!(front == records.concat() && rest.iter().all(|x| *x == 7), "{:?}", String::from_utf8_lossy(&text));
        by_number[[0, 8, 10].iter().position(|x| *x == number).expect("a number of the reader")] += 1;
    }
    assert!(by_number.iter().all(|x| *x > 0), "{by_number:?}: a number never came");
    let [done, long, wrong] = by_number;
    println!("columns: {count} routines in columns, {done} read, {long} too long for the list, {wrong} not in columns, as the judge says");
}

/// The sample for tests/library/stored: the entries that are lent and the bytes in hexadecimal digits; number, count and position, and the records.
pub fn stored(count: u64) -> Sample {
    let mut r = Rng(0x510e_527f_ade6_82d1);
    let (mut input, mut answers) = (String::new(), String::new());
    for _ in 0..count {
        let (text, entries) = case(&mut r);
        let (number, done, position, records) = judged(&text, entries);
        let digits: String = text.iter().map(|byte| format!("{byte:02x}")).collect();
        input += &format!("{entries} {}.\n", digits);
        let numbers: String = records.concat().iter().map(|x| format!(" {x}")).collect();
        answers += &format!("{number} {done} {position}{numbers}\n");
    }
    Sample { input, answers }
}
