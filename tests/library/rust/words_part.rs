//! A64 words: the library against a judge that reads each instruction's diagram as the manual's pages draw it, a string of 32 characters.
//! Digits are fixed; letters are fields: Q, size (s), immh:immb (h), the registers d, n, m, and of an element H, L, M and the low bits
//! of its register (r).
use crate::Sample;
use crate::judge::{Record, form_number, record_number};
use crate::native::{self, OLD, bytes, words};
use crate::pools::Rng;

/// The diagrams of operations 1 to 67.
const DIAGRAMS: [&str; 67] = [
    "0Q0011110hhhhhhh010101nnnnnddddd", // 1 SHL
    "0Q0011110hhhhhhh011101nnnnnddddd", // 2 SQSHL, immediate
    "0Q1011110hhhhhhh011101nnnnnddddd", // 3 UQSHL, immediate
    "0Q1011110hhhhhhh011001nnnnnddddd", // 4 SQSHLU
    "0Q0011110hhhhhhh000001nnnnnddddd", // 5 SSHR
    "0Q1011110hhhhhhh000001nnnnnddddd", // 6 USHR
    "0Q0011110hhhhhhh001001nnnnnddddd", // 7 SRSHR
    "0Q1011110hhhhhhh001001nnnnnddddd", // 8 URSHR
    "0Q001110ss1mmmmm010001nnnnnddddd", // 9 SSHL
    "0Q101110ss1mmmmm010001nnnnnddddd", // 10 USHL
    "0Q001110ss1mmmmm010101nnnnnddddd", // 11 SRSHL
    "0Q101110ss1mmmmm010101nnnnnddddd", // 12 URSHL
    "0Q001110ss1mmmmm010011nnnnnddddd", // 13 SQSHL, register
    "0Q101110ss1mmmmm010011nnnnnddddd", // 14 UQSHL, register
    "0Q001110ss1mmmmm010111nnnnnddddd", // 15 SQRSHL
    "0Q101110ss1mmmmm010111nnnnnddddd", // 16 UQRSHL
    "0Q1011110hhhhhhh010101nnnnnddddd", // 17 SLI
    "0Q1011110hhhhhhh010001nnnnnddddd", // 18 SRI
    "0Q001110ss1mmmmm000011nnnnnddddd", // 19 SQADD
    "0Q101110ss1mmmmm000011nnnnnddddd", // 20 UQADD
    "0Q001110ss1mmmmm001011nnnnnddddd", // 21 SQSUB
    "0Q101110ss1mmmmm001011nnnnnddddd", // 22 UQSUB
    "0Q001110ss1mmmmm000001nnnnnddddd", // 23 SHADD
    "0Q101110ss1mmmmm000001nnnnnddddd", // 24 UHADD
    "0Q001110ss1mmmmm000101nnnnnddddd", // 25 SRHADD
    "0Q101110ss1mmmmm000101nnnnnddddd", // 26 URHADD
    "0Q001110ss100001010010nnnnnddddd", // 27 SQXTN
    "0Q101110ss100001010010nnnnnddddd", // 28 UQXTN
    "0Q101110ss100001001010nnnnnddddd", // 29 SQXTUN
    "0Q0011110hhhhhhh100001nnnnnddddd", // 30 SHRN
    "0Q0011110hhhhhhh100011nnnnnddddd", // 31 RSHRN
    "0Q0011110hhhhhhh100101nnnnnddddd", // 32 SQSHRN
    "0Q0011110hhhhhhh100111nnnnnddddd", // 33 SQRSHRN
    "0Q1011110hhhhhhh100101nnnnnddddd", // 34 UQSHRN
    "0Q1011110hhhhhhh100111nnnnnddddd", // 35 UQRSHRN
    "0Q1011110hhhhhhh100001nnnnnddddd", // 36 SQSHRUN
    "0Q1011110hhhhhhh100011nnnnnddddd", // 37 SQRSHRUN
    "0Q001110ss100000011110nnnnnddddd", // 38 SQABS
    "0Q101110ss100000011110nnnnnddddd", // 39 SQNEG
    "0Q001110ss1mmmmm101101nnnnnddddd", // 40 SQDMULH
    "0Q101110ss1mmmmm101101nnnnnddddd", // 41 SQRDMULH
    "00001110ss1mmmmm110100nnnnnddddd", // 42 SQDMULL
    "00001110ss1mmmmm100100nnnnnddddd", // 43 SQDMLAL
    "00001110ss1mmmmm101100nnnnnddddd", // 44 SQDMLSL
    "01001110ss1mmmmm110100nnnnnddddd", // 45 SQDMULL2
    "01001110ss1mmmmm100100nnnnnddddd", // 46 SQDMLAL2
    "01001110ss1mmmmm101100nnnnnddddd", // 47 SQDMLSL2
    "00001111ssLMrrrr1011H0nnnnnddddd", // 48 SQDMULL, by element
    "00001111ssLMrrrr0011H0nnnnnddddd", // 49 SQDMLAL, by element
    "00001111ssLMrrrr0111H0nnnnnddddd", // 50 SQDMLSL, by element
    "01001111ssLMrrrr1011H0nnnnnddddd", // 51 SQDMULL2, by element
    "01001111ssLMrrrr0011H0nnnnnddddd", // 52 SQDMLAL2, by element
    "01001111ssLMrrrr0111H0nnnnnddddd", // 53 SQDMLSL2, by element
    "0Q001110ss100000001110nnnnnddddd", // 54 SUQADD
    "0Q101110ss100000001110nnnnnddddd", // 55 USQADD
    "0Q001110ss1mmmmm011101nnnnnddddd", // 56 SABD
    "0Q101110ss1mmmmm011101nnnnnddddd", // 57 UABD
    "0Q001110ss1mmmmm011111nnnnnddddd", // 58 SABA
    "0Q101110ss1mmmmm011111nnnnnddddd", // 59 UABA
    "0Q00111000100000010110nnnnnddddd", // 60 CNT
    "0Q101110ss100000010010nnnnnddddd", // 61 CLZ
    "0Q001110ss100000010010nnnnnddddd", // 62 CLS
    "0Q10111001100000010110nnnnnddddd", // 63 RBIT
    "0Q001110ss1mmmmm010000nnnnnddddd", // 64 ADDHN
    "0Q101110ss1mmmmm010000nnnnnddddd", // 65 RADDHN
    "0Q001110ss1mmmmm011000nnnnnddddd", // 66 SUBHN
    "0Q101110ss1mmmmm011000nnnnnddddd", // 67 RSUBHN
];

fn field(diagram: &str, letter: char, word: u32) -> u64 {
    let bits = diagram.chars().zip((0..32).rev()).filter(|(c, _)| *c == letter);
    bits.fold(0, |value, (_, bit)| value << 1 | u64::from(word >> bit & 1))
}

fn fits(diagram: &str, word: u32) -> bool {
    diagram.chars().zip((0..32).rev()).all(|(c, bit)| c.to_digit(2).is_none_or(|digit| digit == word >> bit & 1))
}

fn is_shift(diagram: &str) -> bool {
    diagram.contains('h')
}

/// The arrangement that a word's fields give, if any: from Q and the size of a lane, or of the long operations from the size of a source lane.
fn arrangement(operation: u64, diagram: &str, word: u32) -> Option<u64> {
    let size = match operation {
        60 | 63 => 0,
        _ if is_shift(diagram) => u64::from((field(diagram, 'h', word) >> 3).checked_ilog2()?),
        _ => field(diagram, 's', word),
    };
    match (operation, size, field(diagram, 'Q', word)) {
        (42..=53, 1, _) => Some(5),
        (42..=53, 2, _) => Some(6),
        (42..=53, ..) | (_, 3, 0) => None,
        (_, 3, _) => Some(6),
        (_, _, full) => Some(2 * size + full),
    }
}

/// The record that a word encodes.
fn decoded(word: u32) -> Option<Record> {
    let at = DIAGRAMS.iter().enumerate().filter(|(_, diagram)| fits(diagram, word));
    let mut found = None;
    for (k, diagram) in at {
        let operation = k as u64 + 1;
        let Some(arrangement) = arrangement(operation, diagram, word) else { continue };
        let of = |letter| field(diagram, letter, word);
        let lane = [8, 8, 16, 16, 32, 32, 64][arrangement as usize];
        let (i, m) = match operation {
            1..=4 | 17 => (of('h') - lane, 0),
            5..=8 | 18 | 30..=37 => (2 * lane - of('h'), 0),
            48..=53 if arrangement == 5 => (4 * of('H') + 2 * of('L') + of('M'), of('r')),
            48..=53 => (2 * of('H') + of('L'), 16 * of('M') + of('r')),
            _ => (0, of('m')),
        };
        if form_number(operation, arrangement, i) == 0 {
            assert!(found.is_none(), "{word:08x} is two instructions");
            found = Some([operation, arrangement, i, of('d'), of('n'), m]);
        }
    }
    found
}

/// The word of a legal record: its fields put into the diagram.
fn encoded(&[operation, arrangement, i, d, n, m]: &Record) -> u32 {
    let diagram = DIAGRAMS[operation as usize - 1];
    let lane = [8, 8, 16, 16, 32, 32, 64][arrangement as usize];
    let short = arrangement == 5;
    let value = |letter| match letter {
        'Q' => u64::from([1, 3, 5, 6].contains(&arrangement)),
        's' if (42..=53).contains(&operation) => arrangement - 4,
        's' => arrangement / 2,
        'h' if matches!(operation, 1..=4 | 17) => lane + i,
        'h' => 2 * lane - i,
        'H' => if short { i >> 2 } else { i >> 1 },
        'L' => if short { i >> 1 & 1 } else { i & 1 },
        'M' => if short { i & 1 } else { m >> 4 },
        'r' => m & 15,
        'm' => m,
        'n' => n,
        _ => d,
    };
    let mut word = 0;
    for (c, bit) in diagram.chars().zip((0..32).rev()) {
        // a field's bits come from its highest on: as many are left as there are places from here on
        let left = diagram[31 - bit..].chars().filter(|other| *other == c).count() - 1;
        word |= c.to_digit(2).unwrap_or_else(|| (value(c) >> left & 1) as u32) << bit;
    }
    word
}

fn raw(words: &[u32]) -> Vec<u8> {
    words.iter().flat_map(|word| word.to_le_bytes()).collect()
}

/// The library's answer to one word, which is read alone, and written back if it is a record.
fn one(word: u32) -> Option<Record> {
    let mut records = words(&[9; 6]);
    let (number, count, position) = native::read_words(&word.to_le_bytes(), &mut records);
    if number == 12 {
        assert!((count, position) == (0, 0) && records.items() == [9; 6], "{word:08x}: a refusal leaves its mark");
        return None;
    }
    assert_eq!((number, count, position), (0, 1, 0), "{word:08x}");
    let record: Record = records.items().try_into().expect("six words");
    let mut back = bytes(4);
    assert_eq!(native::write_words(&record, &mut back), (0, 1, 0), "{word:08x}");
    assert_eq!(back.items(), word.to_le_bytes());
    Some(record)
}

fn listed(path: &str) -> Vec<(u32, Option<Record>)> {
    let text = std::fs::read_to_string(path).expect("the list of words");
    let lines = text.lines().filter(|line| !line.starts_with('#'));
    lines
        .map(|line| {
            let (word, rest) = line.split_once(' ').expect("a word and a record");
            let numbers: Vec<u64> = rest.split(' ').filter(|x| *x != "-").map(|x| x.parse().expect("a number")).collect();
            (u32::from_str_radix(word, 16).expect("eight digits"), numbers.try_into().ok())
        })
        .collect()
}

/// Every line of the list, both ways: one at a time, and all that are records as one list, with room, with too little, and cut in a word.
fn list(lines: &[(u32, Option<Record>)]) {
    for (word, record) in lines {
        assert_eq!((one(*word), decoded(*word)), (*record, *record), "{word:08x}");
        assert!(record.is_none_or(|record| encoded(&record) == *word));
    }
    let (all, records): (Vec<u32>, Vec<Record>) = lines.iter().filter_map(|(word, record)| record.map(|r| (*word, r))).unzip();
    let (text, flat, count) = (raw(&all), records.concat(), all.len());
    for (entries, number) in [(6 * count, 0), (6 * count + 5, 0), (6 * count - 1, 9), (0, 9)] {
        let mut got = words(&vec![7; entries]);
        let done = if number == 0 { count } else { 0 };
        assert_eq!(native::read_words(&text, &mut got), (number, done, 0));
        assert!(got.items()[..6 * done] == flat[..6 * done] && got.items()[6 * done..].iter().all(|x| *x == 7), "{entries} entries");
    }
    for (length, number) in [(4 * count, 0), (4 * count + 3, 0), (4 * count - 1, 9), (0, 9)] {
        let mut got = bytes(length);
        let done = if number == 0 { count } else { 0 };
        assert_eq!(native::write_words(&flat, &mut got), (number, done, 0));
        assert!(got.items()[..4 * done] == text[..4 * done] && got.items()[4 * done..].iter().all(|x| *x == OLD), "{length} bytes");
    }
    for cut in 1..4 {
        let mut got = words(&vec![7; 6 * count]);
        assert_eq!(native::read_words(&text[..text.len() - cut], &mut got), (12, 0, count - 1));
        assert!(got.items().iter().all(|x| *x == 7));
        // numbers after the last whole record are not read
        let mut back = bytes(4 * count);
        assert_eq!(native::write_words(&flat[..flat.len() - cut], &mut back), (0, count - 1, 0));
    }
}

/// A word near ours: the fixed bits of some diagram, with one of them turned over at times, and any fields.
fn near(r: &mut Rng) -> u32 {
    let diagram = r.one_of(&DIAGRAMS);
    let any = r.next() as u32;
    let word = diagram.chars().zip((0..32).rev()).fold(0, |word, (c, bit)| word | c.to_digit(2).unwrap_or(any >> bit & 1) << bit);
    if r.below(3) == 0 { word ^ 1 << r.below(32) } else { word }
}

/// Lists with some words that are none of ours, or records that are damaged: the first is told, and nothing is written.
fn damaged(r: &mut Rng, all: &[u32], records: &[Record]) {
    let count = r.below(30) as usize;
    let mut some: Vec<u32> = (0..count).map(|_| r.one_of(all)).collect();
    let mut ours: Vec<Record> = (0..count).map(|_| r.one_of(records)).collect();
    for _ in 0..r.below(3).min(count as u64) {
        some[r.below(count as u64) as usize] = near(r);
        let (at, k) = (r.below(count as u64) as usize, r.below(6) as usize);
        ours[at][k] = [0, 7, 15, 16, 31, 32, 64, 68, u64::MAX, 1 << 32][r.below(10) as usize];
    }
    let broken = if r.below(4) == 0 { 1 + r.below(3) as usize } else { 0 };
    let mut text = raw(&some);
    text.extend(&[0x20, 0x54, 0x08][..broken]);
    let entries = (6 * count).saturating_sub(r.below(2) as usize);
    let bad = some.iter().position(|word| decoded(*word).is_none()).or((broken > 0).then_some(count));
    let want = match bad {
        Some(position) => (12, 0, position),
        None if entries < 6 * count => (9, 0, 0),
        None => (0, count, 0),
    };
    let mut got = words(&vec![7; entries]);
    assert_eq!(native::read_words(&text, &mut got), want, "{some:08x?}");
    assert!(want.0 == 0 || got.items().iter().all(|x| *x == 7));
    let length = (4 * count).saturating_sub(r.below(2) as usize);
    let bad = ours.iter().map(record_number).enumerate().find(|(_, number)| *number != 0);
    let want = match bad {
        Some((position, number)) => (number, 0, position),
        None if length < 4 * count => (9, 0, 0),
        None => (0, count, 0),
    };
    let mut got = bytes(length);
    assert_eq!(native::write_words(&ours.concat(), &mut got), want, "{ours:?}");
    assert!(want.0 == 0 || got.items().iter().all(|x| *x == OLD));
    if want.0 == 0 {
        assert_eq!(got.items()[..4 * count], raw(&ours.iter().map(encoded).collect::<Vec<_>>()));
    }
}

/// The list of words from assemblers.
fn vectors() -> String {
    std::env::var("SHARED").unwrap_or("../shared".to_string()) + "/vectors/words.txt"
}

pub fn main(count: u64) {
    let path = vectors();
    if !std::path::Path::new(&path).is_file() {
        println!("skipped: compare with A64 words (no {path})");
        return;
    }
    let lines = listed(&path);
    assert!(lines.len() >= 5966, "{} lines", lines.len());
    list(&lines);
    let (all, records): (Vec<u32>, Vec<Record>) = lines.iter().filter_map(|(word, record)| record.map(|r| (*word, r))).unzip();
    let mut ours = 0;
    for word in &all {
        for bit in 0..32 {
            let other = word ^ 1 << bit;
            assert_eq!(one(other), decoded(other), "{other:08x}");
            ours += u64::from(decoded(other).is_some());
        }
    }
    println!("words: {} lines both ways; of their {} neighbours by a bit {ours} are forms, as the judge says", lines.len(), 32 * all.len());
    let mut r = Rng(0x6a09_e667_f3bc_c909);
    let (mut ours, mut uniform) = (0, 0);
    for _ in 0..count {
        let (any, word) = (r.next() as u32, near(&mut r));
        assert_eq!(one(any), decoded(any), "{any:08x}");
        assert_eq!(one(word), decoded(word), "{word:08x}");
        ours += u64::from(decoded(word).is_some());
        uniform += u64::from(decoded(any).is_some());
    }
    println!("words: {count} random words, {uniform} of them forms, and {count} near ours, {ours} of them forms, as the judge says");
    for _ in 0..count / 10 + 100 {
        damaged(&mut r, &all, &records);
    }
    println!("words: {} lists of words and of records, some damaged, have the judge's number, count and position", count / 10 + 100);
}

/// The sample for tests/library/stored of legal words, of their neighbours and of damaged records: `w WORD` or `r RECORD`, and the judge's number
/// with the record or the word.
pub fn stored(count: u64) -> Sample {
    let mut r = Rng(0x3c6e_f372_fe94_f82b);
    let lines: Vec<(u32, Record)> =
        std::iter::repeat_with(|| near(&mut r)).filter_map(|word| decoded(word).map(|record| (word, record))).take(count as usize).collect();
    let (mut input, mut answers) = (String::new(), String::new());
    let numbers = |record: Record| record.map(|x| x.to_string()).join(" ");
    let mut r = Rng(0xbb67_ae85_84ca_a73b);
    for (word, record) in lines {
        for word in [word, word ^ 1 << r.below(32), near(&mut r), r.next() as u32] {
            input += &format!("w {word:08x}\n");
            match decoded(word) {
                Some(record) => answers += &format!("0 {}\n", numbers(record)),
                None => answers += "12\n",
            }
        }
        let mut record = record;
        record[r.below(6) as usize] = r.below(70);
        input += &format!("r {}\n", numbers(record));
        match record_number(&record) {
            0 => answers += &format!("0 {:08x}\n", encoded(&record)),
            number => answers += &format!("{number}\n"),
        }
    }
    Sample { input, answers }
}
