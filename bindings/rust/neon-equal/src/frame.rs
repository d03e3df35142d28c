//! The instructions of a routine between its begin and its end. `bti`, `paciasp` and `nop` at the front, `ret` with or without `autiasp` before it, and
//! padding after it are no instructions of the routine.
use neon_terms::{Block, MOST_RECORDS, Record};

use crate::foreign;

const WORD: usize = 4;

const NOP: u32 = 0xd503_201f;
/// `bti` with its four targets, `paciasp` and `pacibsp`.
const FRONT: [u32; 7] = [NOP, 0xd503_241f, 0xd503_245f, 0xd503_249f, 0xd503_24df, 0xd503_233f, 0xd503_237f];
/// `autiasp` and `autibsp`.
const AUTHENTICATE: [u32; 2] = [0xd503_23bf, 0xd503_23ff];
/// `ret`, `retaa` and `retab`.
const RETURN: [u32; 3] = [0xd65f_03c0, 0xd65f_0bff, 0xd65f_0fff];

/// Why a routine is refused: the place, if the reason has one, what is there, and the reason.
#[derive(Debug, Clone, PartialEq, Eq)]
pub struct Refused {
    pub offset: Option<u64>,
    pub text: Option<String>,
    pub reason: String,
}

impl Refused {
    pub fn whole(reason: impl Into<String>) -> Self {
        Self { offset: None, text: None, reason: reason.into() }
    }

    pub fn at(offset: u64, text: String, reason: impl Into<String>) -> Self {
        Self { offset: Some(offset), text: Some(text), reason: reason.into() }
    }
}

impl std::fmt::Display for Refused {
    /// `0x8: movi v1.4s, #31: not one of our operations`
    fn fmt(&self, f: &mut std::fmt::Formatter<'_>) -> std::fmt::Result {
        if let Some(offset) = self.offset {
            write!(f, "0x{offset:x}: ")?;
        }
        if let Some(text) = &self.text {
            write!(f, "{text}: ")?;
        }
        f.write_str(&self.reason)
    }
}

/// The records of a routine, and the place of its first instruction.
#[derive(Debug)]
pub struct Body {
    pub records: Vec<Record>,
    pub first: u64,
}

/// The text of any instruction.
pub fn text(word: u32, offset: u64) -> String {
    Record::from_word(word).map_or_else(|_| foreign::of(word, offset).text, |record| record.to_string())
}

/// The body of code that begins at an offset of its routine. A function has to return; other code may end without. All that is wrong is told.
pub fn body(code: &[u8], start: u64, function: bool) -> Result<Body, Vec<Refused>> {
    let words: Vec<u32> = code.chunks_exact(WORD).map(|word| u32::from_le_bytes([word[0], word[1], word[2], word[3]])).collect();
    let offset = |k: usize| start + (WORD * k) as u64;
    let mut refused = Vec::new();
    let first = words.iter().take_while(|word| FRONT.contains(word)).count();
    let returned = words.iter().position(|word| RETURN.contains(word));
    let end = match returned {
        Some(at) if at > first && AUTHENTICATE.contains(&words[at - 1]) => at - 1,
        Some(at) => at,
        None => words.len(),
    };
    for (k, &word) in words.iter().enumerate().take(end).skip(first) {
        if Record::from_word(word).is_err() {
            let foreign = foreign::of(word, offset(k));
            refused.push(Refused::at(offset(k), foreign.text, foreign.class.reason()));
        }
    }
    let after = returned.map_or(words.len(), |at| at + 1);
    for (k, &word) in words.iter().enumerate().skip(after).filter(|(_, word)| **word != NOP && **word >> 16 != 0) {
        refused.push(Refused::at(offset(k), text(word, offset(k)), "code after ret"));
    }
    // zeros after ret may end within a word
    let broken = &code[WORD * words.len()..];
    if !broken.is_empty() && (returned.is_none() || broken.iter().any(|&byte| byte != 0)) {
        let there = format!("{} of 4 bytes", broken.len());
        refused.push(Refused { offset: Some(offset(words.len())), text: Some(there), reason: "a broken word".to_string() });
    }
    if function && returned.is_none() {
        refused.push(Refused::whole("it does not end with ret"));
    }
    if end.saturating_sub(first) > MOST_RECORDS {
        refused.push(Refused::whole(format!("it has {} instructions, and {MOST_RECORDS} is the most", end - first)));
    }
    if !refused.is_empty() {
        return Err(refused);
    }
    let records = Block::from_bytes(&code[WORD * first..WORD * end]).map_err(|refusal| vec![Refused::whole(refusal.to_string())])?.to_vec();
    Ok(Body { records, first: offset(first) })
}

#[cfg(test)]
mod tests {
    use super::*;

    const SQADD: u32 = 0x4e23_0c02;
    const RET: u32 = 0xd65f_03c0;
    const PACIASP: u32 = 0xd503_233f;
    const AUTIASP: u32 = 0xd503_23bf;
    const BTI: u32 = 0xd503_245f;
    const MOVI: u32 = 0x4f00_07e1;

    fn tried(words: &[u32], function: bool) -> Result<(usize, u64), Vec<String>> {
        let code: Vec<u8> = words.iter().flat_map(|word| word.to_le_bytes()).collect();
        let told = |refused: Vec<Refused>| refused.iter().map(Refused::to_string).collect();
        body(&code, 0, function).map(|body| (body.records.len(), body.first)).map_err(told)
    }

    #[test]
    fn begin_and_end_are_no_instructions() {
        assert_eq!(tried(&[SQADD, RET], true), Ok((1, 0)));
        assert_eq!(tried(&[RET], true), Ok((0, 0)));
        assert_eq!(tried(&[BTI, PACIASP, NOP, SQADD, SQADD, AUTIASP, RET, NOP, 0, NOP], true), Ok((2, 12)));
        assert_eq!(tried(&[PACIASP, AUTIASP, RET], true), Ok((0, 4)));
        assert_eq!(tried(&[SQADD, 0xd65f_0bff], true), Ok((1, 0)));
        assert_eq!(tried(&[SQADD], false), Ok((1, 0)));
        assert_eq!(tried(&[], false), Ok((0, 0)));
        assert_eq!(tried(&[SQADD; 85], false), Ok((85, 0)));
    }

    #[test]
    fn all_that_is_wrong_is_told() {
        let wrong = ["0x0: movi v1.4s, #31: not one of our operations", "0x8: nop: a system instruction, not one of our operations"];
        assert_eq!(tried(&[MOVI, SQADD, NOP, RET], true).unwrap_err(), wrong);
        assert_eq!(tried(&[SQADD], true).unwrap_err(), ["it does not end with ret"]);
        assert_eq!(tried(&[RET, SQADD, RET], true).unwrap_err(), ["0x4: sqadd v2.16b, v0.16b, v3.16b: code after ret", "0x8: ret: code after ret"]);
        assert_eq!(tried(&[SQADD, 0, SQADD, RET], true).unwrap_err(), ["0x4: udf #0: not one of our operations"]);
        assert_eq!(tried(&[AUTIASP, SQADD, RET], true).unwrap_err(), ["0x0: autiasp: a system instruction, not one of our operations"]);
        assert_eq!(tried(&[SQADD; 86], false).unwrap_err(), ["it has 86 instructions, and 85 is the most"]);
        let told = body(&[0; 3], 8, false).unwrap_err();
        assert_eq!(told[0].to_string(), "0x8: 3 of 4 bytes: a broken word");
    }
}
