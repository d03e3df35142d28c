//! The words of operations 68 to 190, which the library does not take yet: as records, so that they can be named.
use neon_terms::Record;

/// A field of a word: a number of bits from a first one on.
fn field(word: u32, low: u32, bits: u32) -> u64 {
    u64::from(word >> low & ((1 << bits) - 1))
}

/// The arrangement of lanes of 8 × 2^size bits over 64 or 128 bits; there is no single lane of 64.
fn arrangement(size: u64, full: u64) -> Option<u64> {
    match (size, full) {
        (0..=2, _) => Some(2 * size + full),
        (3, 1) => Some(6),
        _ => None,
    }
}

/// The arrangement of 128 bits whose lanes are twice as wide as 8 × 2^size bits.
fn long(size: u64) -> Option<u64> {
    [3, 5, 6].get(size as usize).copied()
}

/// Of a word that is an operation of the second set, the record. Each class is a row of document 03's table of words.
pub fn record(word: u32) -> Option<Record> {
    let class = |mask: u32, value: u32| word & mask == value;
    let numbers = if class(0x9f20_0400, 0x0e20_0400) {
        three_same(word)
    } else if class(0x9f3e_0c00, 0x0e20_0800) {
        two_registers(word)
    } else if class(0x9f3e_0c00, 0x0e30_0800) {
        across(word)
    } else if class(0x9ff8_0c00, 0x0f00_0400) {
        modified_immediate(word)
    } else if class(0x9f80_0400, 0x0f00_0400) {
        shift(word)
    } else if class(0x9fe0_8400, 0x0e00_0400) {
        copy(word)
    } else if class(0xffe0_fc00, 0x5e00_0400) {
        let z = u64::from(word >> 16).trailing_zeros();
        [1, 3, 5, 6].get(z as usize).map(|arr| [109, *arr, field(word, 16, 5) >> (z + 1)])
    } else if class(0xbfe0_8400, 0x2e00_0000) {
        let (full, i) = (field(word, 30, 1), field(word, 11, 4));
        (full == 1 || i < 8).then_some([111, full, i])
    } else if class(0xbf20_8c00, 0x0e00_0800) {
        permute(word)
    } else if class(0xbfe0_fc00, 0x0e00_0000) {
        Some([121, field(word, 30, 1), 0])
    } else if class(0x9f20_0c00, 0x0e20_0000) {
        three_different(word)
    } else if class(0x9f00_0400, 0x0f00_0000) {
        return by_element(word);
    } else if class(0xffff_fc00, 0x5ef1_b800) {
        Some([187, 6, 0])
    } else {
        None
    };
    let [operation, arrangement, i] = numbers?;
    let (d, n) = (field(word, 0, 5), field(word, 5, 5));
    let n = if (103..=107).contains(&operation) { 0 } else { n };
    let second = matches!(operation, 68..=76 | 79..=84 | 90..=97 | 111..=117 | 121 | 129..=182);
    let m = if second { field(word, 16, 5) } else { 0 };
    Some(Record { operation, arrangement, i, d, n, m })
}

fn three_same(word: u32) -> Option<[u64; 3]> {
    let (full, unsigned, size, opcode) = (field(word, 30, 1), field(word, 29, 1), field(word, 22, 2), field(word, 11, 5));
    if opcode == 0b00011 {
        return Some([90 + 4 * unsigned + size, full, 0]);
    }
    let arrangement = arrangement(size, full)?;
    let operation = match (unsigned, opcode) {
        (0, 0b10000) => 68,
        (1, 0b10000) => 69,
        (0, 0b10011) => 70,
        (0, 0b10010) => 71,
        (1, 0b10010) => 72,
        (0, 0b01100) => 73,
        (1, 0b01100) => 74,
        (0, 0b01101) => 75,
        (1, 0b01101) => 76,
        (1, 0b10001) => 79,
        (0, 0b00110) => 80,
        (0, 0b00111) => 81,
        (1, 0b00110) => 82,
        (1, 0b00111) => 83,
        (0, 0b10001) => 84,
        (0, 0b10111) => 182,
        _ => return None,
    };
    (!(70..=76).contains(&operation) || arrangement != 6).then_some([operation, arrangement, 0])
}

fn two_registers(word: u32) -> Option<[u64; 3]> {
    let (full, unsigned, size, opcode) = (field(word, 30, 1), field(word, 29, 1), field(word, 22, 2), field(word, 12, 5));
    if (unsigned, opcode) == (1, 0b10011) {
        return Some([125 + 3 * full, long(size)?, 0]);
    }
    let arrangement = arrangement(size, full)?;
    let (operation, most) = match (unsigned, opcode) {
        (0, 0b01011) => (77, 3),
        (1, 0b01011) => (78, 3),
        (0, 0b01001) => (85, 3),
        (0, 0b01000) => (86, 3),
        (1, 0b01000) => (87, 3),
        (1, 0b01001) => (88, 3),
        (0, 0b01010) => (89, 3),
        (1, 0b00101) => (98, 0),
        (0, 0b00001) => (118, 0),
        (1, 0b00000) => (119, 1),
        (0, 0b00000) => (120, 2),
        (0, 0b10010) => (122, 2),
        (0, 0b00010) => (183, 2),
        (1, 0b00010) => (184, 2),
        (0, 0b00110) => (185, 2),
        (1, 0b00110) => (186, 2),
        _ => return None,
    };
    (size <= most).then_some([operation, arrangement, 0])
}

fn across(word: u32) -> Option<[u64; 3]> {
    let (full, size) = (field(word, 30, 1), field(word, 22, 2));
    let operation = match (field(word, 29, 1), field(word, 12, 5)) {
        (0, 0b11011) => 188,
        (0, 0b00011) => 189,
        (1, 0b00011) => 190,
        _ => return None,
    };
    (size < 2 || (size, full) == (2, 1)).then_some([operation, 2 * size + full, 0])
}

fn modified_immediate(word: u32) -> Option<[u64; 3]> {
    let (full, op, cmode) = (field(word, 30, 1), field(word, 29, 1), field(word, 12, 4));
    let c = field(word, 16, 3) << 5 | field(word, 5, 5);
    Some(match cmode {
        0b0000..=0b0111 => [if cmode % 2 == 0 { 103 + op } else { 105 + op }, 4 + full, c + 256 * (cmode >> 1)],
        0b1000..=0b1011 => [if cmode % 2 == 0 { 103 + op } else { 105 + op }, 2 + full, c + 256 * (cmode >> 1 & 1)],
        0b1100 | 0b1101 => [103 + op, 4 + full, c + 256 * (4 + cmode % 2)],
        0b1110 => [if op == 0 { 103 } else { 107 }, full, c],
        _ => return None,
    })
}

fn shift(word: u32) -> Option<[u64; 3]> {
    let (full, unsigned, amount) = (field(word, 30, 1), field(word, 29, 1), field(word, 16, 7));
    let size = u64::from((amount >> 3).checked_ilog2()?);
    let lane = 8 << size;
    match field(word, 11, 5) {
        0b00010 => Some([99 + unsigned, arrangement(size, full)?, 2 * lane - amount]),
        0b00110 => Some([101 + unsigned, arrangement(size, full)?, 2 * lane - amount]),
        0b10100 => Some([123 + unsigned + 3 * full, long(size)?, amount - lane]),
        _ => None,
    }
}

fn copy(word: u32) -> Option<[u64; 3]> {
    let (full, imm5, imm4) = (field(word, 30, 1), field(word, 16, 5), field(word, 11, 4));
    let z = u64::from(imm5.trailing_zeros());
    if z > 3 {
        return None;
    }
    match (field(word, 29, 1), full) {
        (0, _) if imm4 == 0 => Some([108, arrangement(z, full)?, imm5 >> (z + 1)]),
        // a word with one of the low bits up is an INS for the processor, and no record's
        (1, 1) if imm4 % (1 << z) == 0 => Some([110, arrangement(z, 1)?, (16 >> z) * (imm5 >> (z + 1)) + (imm4 >> z)]),
        _ => None,
    }
}

fn permute(word: u32) -> Option<[u64; 3]> {
    let operation = match field(word, 12, 3) {
        0b001 => 114,
        0b010 => 116,
        0b011 => 112,
        0b101 => 115,
        0b110 => 117,
        0b111 => 113,
        _ => return None,
    };
    Some([operation, arrangement(field(word, 22, 2), field(word, 30, 1))?, 0])
}

fn three_different(word: u32) -> Option<[u64; 3]> {
    let (upper, unsigned) = (field(word, 30, 1), field(word, 29, 1));
    let (first, apart) = match field(word, 12, 4) {
        0b0000 => (129, 14),
        0b0010 => (131, 14),
        0b0111 => (133, 14),
        0b0101 => (135, 14),
        0b1100 => (137, 14),
        0b1000 => (139, 14),
        0b1010 => (141, 14),
        0b0001 => (157, 4),
        0b0011 => (159, 4),
        _ => return None,
    };
    Some([first + unsigned + apart * upper, long(field(word, 22, 2))?, 0])
}

fn by_element(word: u32) -> Option<Record> {
    let (full, unsigned, size) = (field(word, 30, 1), field(word, 29, 1), field(word, 22, 2));
    let (h, l, m) = (field(word, 11, 1), field(word, 21, 1), field(word, 20, 1));
    let (i, m) = match size {
        1 => (4 * h + 2 * l + m, field(word, 16, 4)),
        2 => (2 * h + l, field(word, 16, 5)),
        _ => return None,
    };
    let same = |operation| Some((operation, arrangement(size, full)?));
    let wide = |operation| Some((operation + unsigned + 6 * full, long(size)?));
    let (operation, arrangement) = match (unsigned, field(word, 12, 4)) {
        (0, 0b1000) => same(165)?,
        (1, 0b0000) => same(166)?,
        (1, 0b0100) => same(167)?,
        (0, 0b1100) => same(168)?,
        (0, 0b1101) => same(169)?,
        (_, 0b1010) => wide(170)?,
        (_, 0b0010) => wide(172)?,
        (_, 0b0110) => wide(174)?,
        _ => return None,
    };
    Some(Record { operation, arrangement, i, d: field(word, 0, 5), n: field(word, 5, 5), m })
}

#[cfg(test)]
mod tests {
    use super::*;

    #[test]
    fn a_word_of_each_class() {
        for (word, text) in [
            (0x4e21_8401, "add v1.16b, v0.16b, v1.16b"),
            (0x4ea1_1c00, "orr v0.16b, v0.16b, v1.16b"),
            (0x6e20_5800, "mvn v0.16b, v0.16b"),
            (0x4eb1_b800, "addv s0, v0.4s"),
            (0x4f00_07e1, "movi v1.4s, #31"),
            (0x6f1f_1420, "usra v0.8h, v1.8h, #1"),
            (0x2f08_a400, "ushll v0.8h, v0.8b, #0"),
            (0x4e0c_0420, "dup v0.4s, v1.s[1]"),
            (0x5e18_0420, "mov d0, v1.d[1]"),
            (0x6e1c_2420, "mov v0.s[3], v1.s[1]"),
            (0x6e02_2020, "ext v0.16b, v1.16b, v2.16b, #4"),
            (0x4e02_3820, "zip1 v0.16b, v1.16b, v2.16b"),
            (0x4e02_0020, "tbl v0.16b, { v1.16b }, v2.16b"),
            (0x2e22_c020, "umull v0.8h, v1.8b, v2.8b"),
            (0x4f42_8820, "mul v0.8h, v1.8h, v2.h[4]"),
            (0x5ef1_b820, "addp d0, v1.2d"),
        ] {
            assert_eq!(record(word).map(|record| record.to_string()).as_deref(), Some(text), "{word:08x}");
        }
        // ret, fadd, an INS whose low bits are no record's
        for word in [0xd65f_03c0, 0x4e22_d420, 0x6e1c_2c20] {
            assert_eq!(record(word), None, "{word:08x}");
        }
    }
}
