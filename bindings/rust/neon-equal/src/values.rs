//! Values of options, and the words of a line.
use crate::pair::{Lane, Register};
use crate::solver::Solver;

/// Words between blanks; quotes keep blanks together.
pub fn words(text: &str) -> Result<Vec<String>, String> {
    let (mut words, mut word, mut quoted) = (Vec::new(), None::<String>, false);
    for c in text.chars() {
        match c {
            '"' => {
                quoted = !quoted;
                word.get_or_insert_default();
            }
            c if c.is_ascii_whitespace() && !quoted => words.extend(word.take()),
            c => word.get_or_insert_default().push(c),
        }
    }
    words.extend(word);
    if quoted { Err("a quote is not closed".to_string()) } else { Ok(words) }
}

/// A decimal number without sign or leading zero.
pub fn number(text: &str) -> Option<u64> {
    let plain = text.bytes().all(|byte| byte.is_ascii_digit()) && (text == "0" || !text.starts_with('0'));
    text.parse().ok().filter(|_| plain)
}

/// A place in code: hexadecimal after 0x, else decimal; of whole words.
fn offset(text: &str) -> Option<u64> {
    let hex = |digits: &str| digits.bytes().all(|byte| byte.is_ascii_hexdigit()).then(|| u64::from_str_radix(digits, 16).ok())?;
    text.strip_prefix("0x").map_or_else(|| number(text), hex).filter(|offset| offset % 4 == 0)
}

/// One for both routines, or one for each.
pub fn offsets(text: &str) -> Option<[u64; 2]> {
    let (old, new) = text.split_once(',').unwrap_or((text, text));
    Some([offset(old)?, offset(new)?])
}

/// Registers by name, and rows of them, in order and each once. A whole register has its half in it.
pub fn registers(text: &str) -> Option<Vec<Register>> {
    let one = |name: &str| {
        let half = name.starts_with('d');
        let number = name.strip_prefix(['v', 'd']).and_then(number).filter(|&r| r < 32)?;
        Some(Register { number: number as u8, half })
    };
    let row = |text: &str| {
        let (first, last) = text.split_once('-').unwrap_or((text, text));
        let (first, last) = (one(first)?, one(last)?);
        let ordered = first.half == last.half && first.number <= last.number;
        ordered.then(|| (first.number..=last.number).map(move |number| Register { number, half: first.half }))
    };
    let mut all: Vec<Register> = text.split(',').map(row).collect::<Option<Vec<_>>>()?.into_iter().flatten().collect();
    all.sort_unstable();
    all.dedup_by_key(|register| register.number);
    Some(all)
}

/// The registers in which functions give vectors back.
pub fn result(text: &str) -> Option<Vec<Register>> {
    registers(text).filter(|all| all.iter().all(|register| register.number < 8))
}

pub fn lane(text: &str) -> Option<Lane> {
    number(text).and_then(|bits| Lane::of(u32::try_from(bits).ok()?))
}

pub fn seconds(text: &str) -> Option<u64> {
    number(text).filter(|n| (1..=86400).contains(n))
}

/// Each solver once, in the order of `Solver::ALL`.
pub fn solvers(text: &str) -> Option<Vec<Solver>> {
    if text == "none" {
        return Some(Vec::new());
    }
    let named = text.split(',').map(Solver::of).collect::<Option<Vec<_>>>()?;
    Some(Solver::ALL.into_iter().filter(|solver| named.contains(solver)).collect())
}

#[cfg(test)]
mod tests {
    use super::*;

    fn names(registers: Option<Vec<Register>>) -> Vec<String> {
        registers.unwrap_or_default().iter().map(Register::to_string).collect()
    }

    #[test]
    fn rows_of_registers() {
        assert_eq!(names(registers("v0-v3")), ["v0", "v1", "v2", "v3"]);
        assert_eq!(names(registers("d8-d9,v9,d1")), ["d1", "d8", "v9"]);
        for text in ["v32", "v0,", "0", "v3-v0", "v0-d3", "v0-", "q0", "v00", ""] {
            assert_eq!(registers(text), None, "{text}");
        }
    }
}
