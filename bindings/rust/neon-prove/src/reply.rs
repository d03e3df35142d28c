//! What solvers are asked to write, and how it is read.
use neon_terms::Registers;

use crate::solver::{MOST_BYTES, Reply, Why};

/// The command that asks for the numbers of registers after the script's own.
pub fn get_value(asked: &[u8]) -> String {
    let names: Vec<String> = asked.iter().map(|register| format!("r{register}")).collect();
    format!("(get-value ({}))\n", names.join(" "))
}

/// What a solver wrote: `unsat`, the word, and the error that there is no model to get; or `sat`, the word and the model. All else is nothing.
pub fn reply(bytes: &[u8], word: &str, asked: &[u8]) -> Reply {
    let unreadable = || Reply::Nothing(Why::Unreadable(String::new()));
    let text = std::str::from_utf8(bytes).ok().filter(|_| bytes.len() <= MOST_BYTES);
    let Some((answer, rest)) = text.and_then(|text| text.split_once('\n')) else { return unreadable() };
    if (answer, rest) == ("timeout", "") {
        return Reply::Nothing(Why::Time);
    }
    // cvc5 writes the word as it was given, in quotes
    let Some((_, rest)) = rest.split_once('\n').filter(|(line, _)| line.trim_matches('"') == word) else { return unreadable() };
    match answer {
        "unsat" if rest.is_empty() || is_error(rest) => Reply::Unsat,
        "sat" => model(rest, asked).map_or_else(unreadable, |start| Reply::Sat(Box::new(start))),
        "unknown" if rest.is_empty() || is_error(rest) => Reply::Nothing(Why::Unknown),
        _ => unreadable(),
    }
}

/// One line `(error "...")`.
fn is_error(text: &str) -> bool {
    let inner = text.strip_prefix("(error \"").and_then(|text| text.strip_suffix("\")\n"));
    inner.is_some_and(|inner| !inner.contains(['\n', '"']))
}

/// `((r1 VALUE) (r2 VALUE))`, for each register that was asked for, in that order.
fn model(text: &str, asked: &[u8]) -> Option<Registers> {
    let spaced = text.replace('(', " ( ").replace(')', " ) ");
    let mut tokens = spaced.split_ascii_whitespace();
    let mut registers = Registers::default();
    is(tokens.next(), "(")?;
    for &register in asked {
        is(tokens.next(), "(")?;
        is(tokens.next(), &format!("r{register}"))?;
        registers.0[usize::from(register)] = value(&mut tokens)?;
        is(tokens.next(), ")")?;
    }
    is(tokens.next(), ")")?;
    tokens.next().is_none().then_some(registers)
}

fn is(token: Option<&str>, text: &str) -> Option<()> {
    (token == Some(text)).then_some(())
}

/// A number of 128 bits: `#x`, `#b` or `(_ bvN 128)`.
fn value<'a>(tokens: &mut impl Iterator<Item = &'a str>) -> Option<u128> {
    let token = tokens.next()?;
    let digits = |text: &str, base: u32| text.chars().all(|digit| digit.is_digit(base)).then(|| u128::from_str_radix(text, base).ok())?;
    if let Some(text) = token.strip_prefix("#x") {
        return digits(text, 16).filter(|_| text.len() == 32);
    }
    if let Some(text) = token.strip_prefix("#b") {
        return digits(text, 2).filter(|_| text.len() == 128);
    }
    is(Some(token), "(")?;
    is(tokens.next(), "_")?;
    let number = digits(tokens.next()?.strip_prefix("bv")?, 10)?;
    is(tokens.next(), "128")?;
    is(tokens.next(), ")")?;
    Some(number)
}

#[cfg(test)]
mod tests {
    use super::*;

    const X: &str = "#x000000000000000000000000000000ff";

    const WORD: &str = "neon-prove-1";

    fn said(text: &str) -> Reply {
        reply(text.as_bytes(), WORD, &[1, 30])
    }

    fn sat(text: &str) -> Reply {
        said(&format!("sat\n{WORD}\n{text}"))
    }

    #[test]
    fn answers_of_both_solvers() {
        let mut start = Registers::default();
        (start.0[1], start.0[30]) = (255, 5);
        assert_eq!(sat(&format!("((r1 {X})\n (r30 (_ bv5 128)))\n")), Reply::Sat(Box::new(start)));
        assert_eq!(sat(&format!("((r1 #b{:0128b}) (r30 #x{:032x}))\n", 255, 5)), Reply::Sat(Box::new(start)));
        for text in ["unsat\nneon-prove-1\n", "unsat\n\"neon-prove-1\"\n(error \"line 6 column 18: model is not available\")\n"] {
            assert_eq!(said(text), Reply::Unsat);
        }
        assert_eq!(said("unknown\nneon-prove-1\n"), Reply::Nothing(Why::Unknown));
    }

    #[test]
    fn all_else_is_nothing() {
        let unreadable = Reply::Nothing(Why::Unreadable(String::new()));
        let two_errors = "unsat\nneon-prove-1\n(error \"a\")\n(error \"b\")\n";
        for text in [
            "", "unsat", "unsat\n", "UNSAT\nneon-prove-1\n", " unsat\nneon-prove-1\n", "unsat\nneon-prove-1", "unsat\nneon-prove-2\n",
            "unsat\nneon-prove-1\nsat\n", "unsat\nunsat\n", "sat\nneon-prove-1\n", "(error \"unsat\")\n", two_errors,
        ] {
            assert_eq!(said(text), unreadable, "{text:?}");
        }
        for text in [
            format!("((r1 {X}))\n"), format!("((r30 {X}) (r1 {X}))\n"), format!("((r1 {X}) (r30 {X})) x\n"), format!("((r1 {X}) (r30 #xff))\n"),
            format!("((r1 {X}) (r30 (_ bv5 64)))\n"), format!("((r1 {X}) (r30 (_ bv+5 128)))\n"), format!("((r1 {X}) (r30 #x{:0>32}))\n", "+5"),
            format!("((r1 {X}) (r30 (_ bv{} 128)))\n", "9".repeat(40)), "((r1 #b) (r30 #b))\n".to_string(), "()\n".to_string(),
        ] {
            assert_eq!(sat(&text), unreadable, "{text}");
        }
        assert_eq!(reply(&[b'x'; MOST_BYTES + 1], WORD, &[1]), unreadable);
        assert_eq!(reply(b"unsat\nneon-prove-1\n\xff", WORD, &[1]), unreadable);
    }
}
