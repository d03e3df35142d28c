//! Document 01's values under Forms, on integers, lane by lane: what a block leaves in the registers. Written from the paper, once more.
use crate::judge::{Record, view};

/// The n low bits, read unsigned or signed.
pub fn read(signed: bool, n: u32, x: u64) -> i128 {
    let x = x & mask(n);
    if signed && x >> (n - 1) == 1 { i128::from(x) - (1 << n) } else { i128::from(x) }
}

fn mask(n: u32) -> u64 {
    if n == 64 { u64::MAX } else { (1 << n) - 1 }
}

pub fn clamp(signed: bool, n: u32, z: i128) -> u64 {
    let (low, high) = if signed { (-(1 << (n - 1)), (1 << (n - 1)) - 1) } else { (0, (1 << n) - 1) };
    z.clamp(low, high) as u64 & mask(n)
}

/// z × 2^k. Where that has more than 127 bits: a number of the same sign and low 64 bits that is out of every range.
pub fn left(z: i128, k: u32) -> i128 {
    if k < 100 {
        if let Some(v) = z.checked_mul(1 << k) {
            return v;
        }
    }
    z.signum() * (1 << 100) + i128::from((z as u64).checked_shl(k).unwrap_or(0))
}

/// z / 2^k, floored; rounding adds half of 2^k first.
pub fn right(rounding: bool, z: i128, k: u32) -> i128 {
    match (rounding, k) {
        (_, 0) => z,
        (true, 101..) => 0,
        (false, 101..) => z.signum().min(0),
        (true, _) => (z + (1 << (k - 1))) >> k,
        (false, _) => z >> k,
    }
}

/// Operations 9 to 16, by the signed low byte of b.
fn by_register(operation: u64, n: u32, a: u64, b: u64) -> u64 {
    let signed = operation % 2 == 1;
    let rounding = matches!(operation, 11 | 12 | 15 | 16);
    let k = i32::from(b as u8 as i8);
    let a = read(signed, n, a);
    let z = if k >= 0 { left(a, k as u32) } else { right(rounding, a, -k as u32) };
    if operation >= 13 { clamp(signed, n, z) } else { z as u64 & mask(n) }
}

fn leading(n: u32, from: u32, x: u64, bit: u64) -> u64 {
    (from..n).take_while(|j| x >> (n - 1 - j) & 1 == bit).count() as u64
}

/// One lane of n bits; a and b have the bits of a source lane.
fn lane(operation: u64, n: u32, i: u32, d: u64, a: u64, b: u64) -> u64 {
    let cut = |z: i128| z as u64 & mask(n);
    let (u, s) = (|x| read(false, n, x), |x| read(true, n, x));
    let (wide_u, wide_s) = (|x| if n <= 32 { read(false, 2 * n, x) } else { 0 }, |x| if n <= 32 { read(true, 2 * n, x) } else { 0 });
    let half = |x| read(true, n / 2, x);
    let even_signed = |first: u64| (operation - first) % 2 == 0;
    match operation {
        1 => cut(left(u(a), i)),
        2 => clamp(true, n, left(s(a), i)),
        3 => clamp(false, n, left(u(a), i)),
        4 => clamp(false, n, left(s(a), i)),
        5 => cut(right(false, s(a), i)),
        6 => cut(right(false, u(a), i)),
        7 => cut(right(true, s(a), i)),
        8 => cut(right(true, u(a), i)),
        9..=16 => by_register(operation, n, a, b),
        17 => cut(left(u(a), i)) | d & (mask(n) >> 1 >> (n - 1 - i)),
        18 => cut(right(false, u(a), i)) | d & mask(n) & !(mask(n) as u128 >> i) as u64,
        19 => clamp(true, n, s(a) + s(b)),
        20 => clamp(false, n, u(a) + u(b)),
        21 => clamp(true, n, s(a) - s(b)),
        22 => clamp(false, n, u(a) - u(b)),
        23..=26 => {
            let (signed, rounding) = (even_signed(23), operation >= 25);
            cut(right(rounding, read(signed, n, a) + read(signed, n, b), 1))
        }
        27 => clamp(true, n, wide_s(a)),
        28 => clamp(false, n, wide_u(a)),
        29 => clamp(false, n, wide_s(a)),
        30 | 31 => cut(right(operation == 31, wide_u(a), i)),
        32 | 33 => clamp(true, n, right(operation == 33, wide_s(a), i)),
        34 | 35 => clamp(false, n, right(operation == 35, wide_u(a), i)),
        36 | 37 => clamp(false, n, right(operation == 37, wide_s(a), i)),
        38 => clamp(true, n, s(a).abs()),
        39 => clamp(true, n, -s(a)),
        40 | 41 => clamp(true, n, right(operation == 41, 2 * s(a) * s(b), n)),
        42..=53 => {
            let p = clamp(true, n, 2 * half(a) * half(b));
            match (operation - 42) % 3 {
                0 => p,
                1 => clamp(true, n, s(d) + s(p)),
                _ => clamp(true, n, s(d) - s(p)),
            }
        }
        54 => clamp(true, n, s(d) + u(a)),
        55 => clamp(false, n, u(d) + s(a)),
        56 => cut((s(a) - s(b)).abs()),
        57 => cut((u(a) - u(b)).abs()),
        58 => cut(u(d) + (s(a) - s(b)).abs()),
        59 => cut(u(d) + (u(a) - u(b)).abs()),
        60 => (0..n).map(|j| a >> j & 1).sum(),
        61 => leading(n, 0, a, 0),
        62 => leading(n, 1, a, a >> (n - 1) & 1),
        63 => (0..n).map(|j| (a >> j & 1) << (n - 1 - j)).sum(),
        _ => {
            let sum = if operation <= 65 { wide_u(a) + wide_u(b) } else { wide_u(a) - wide_u(b) };
            let half = if operation % 2 == 1 { 1 << (n - 1) } else { 0 };
            ((sum + half) >> n) as u64 & mask(n)
        }
    }
}

fn at(register: u128, bits: u32, lane: u32) -> u64 {
    (register >> (bits * lane)) as u64 & mask(bits)
}

/// What a lane of a result is made of: lanes of the old destination and of the two sources.
pub struct Sources {
    pub old: u64,
    pub first: u64,
    pub second: u64,
}

/// The bits of a lane of the result, and the sources of each lane.
pub fn lanes(&[operation, arrangement, i, d, n, m]: &Record, registers: &[u128; 32]) -> (u32, Vec<Sources>) {
    let [old, first, second] = [d, n, m].map(|r| registers[r as usize]);
    let bits = [8, 8, 16, 16, 32, 32, 64][arrangement as usize];
    let long = (42..=53).contains(&operation);
    let source = if narrows(operation) { 2 * bits } else if long { bits / 2 } else { bits };
    let many = if narrows(operation) || view(arrangement) == 64 { 64 / bits } else { 128 / bits };
    let skip = if matches!(operation, 45..=47 | 51..=53) { 64 / source } else { 0 };
    let of_second = |j: u32| if operation >= 48 && long { i as u32 } else { j + skip };
    let one = |j: u32| Sources { old: at(old, bits, j), first: at(first, source, j + skip), second: at(second, source, of_second(j)) };
    (bits, (0..many).map(one).collect())
}

fn narrows(operation: u64) -> bool {
    matches!(operation, 27..=37 | 64..=67)
}

/// One record on the registers.
pub fn step(record: &Record, registers: &mut [u128; 32]) {
    let [operation, arrangement, i, d, ..] = *record;
    let (bits, sources) = lanes(record, registers);
    let made = sources.iter().map(|s| u128::from(lane(operation, bits, i as u32, s.old, s.first, s.second)));
    let new = made.enumerate().fold(0, |all, (j, value)| all | value << (bits * j as u32));
    let upper = narrows(operation) && view(arrangement) == 128;
    let to = &mut registers[d as usize];
    *to = if upper { new << 64 | *to & u128::from(u64::MAX) } else { new };
}

pub fn run(records: &[Record], registers: &mut [u128; 32]) {
    for record in records {
        step(record, registers);
    }
}
