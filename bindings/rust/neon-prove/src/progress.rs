//! How far it is, for a person at a terminal: one line on standard error, which the next replaces.
use std::io::{self, IsTerminal, Write};

pub fn show(text: &str) {
    let mut error = io::stderr().lock();
    if error.is_terminal() {
        // the answer does not depend on it
        let _ = write!(error, "\r\x1b[K{text}").and_then(|()| error.flush());
    }
}

/// A number with commas between its thousands.
pub fn grouped(number: u64) -> String {
    let digits = number.to_string();
    let mut text = String::new();
    for (k, digit) in digits.chars().enumerate() {
        if k > 0 && (digits.len() - k) % 3 == 0 {
            text.push(',');
        }
        text.push(digit);
    }
    text
}

#[cfg(test)]
mod tests {
    use super::grouped;

    #[test]
    fn thousands() {
        assert_eq!([0, 999, 1000, 12_345, 1_234_567].map(grouped), ["0", "999", "1,000", "12,345", "1,234,567"]);
    }
}
