//! A graph as a binary AIGER file with 4,096 inputs and one output. The numbers of variables are the same.
use crate::search::FIRST_GATE;

/// 7 bits a byte, the lowest first; a byte above 127 is not the last.
fn number(bytes: &mut Vec<u8>, mut value: u32) {
    while value > 127 {
        bytes.push(value as u8 | 128);
        value >>= 7;
    }
    bytes.push(value as u8);
}

pub fn file(gates: &[u64], output: u32) -> Vec<u8> {
    let inputs = FIRST_GATE as usize - 1;
    let mut bytes = format!("aig {} {inputs} 0 1 {}\n{output}\n", inputs + gates.len(), gates.len()).into_bytes();
    for (k, gate) in gates.iter().enumerate() {
        let (left, right) = (*gate as u32, (gate >> 32) as u32);
        let literal = 2 * (FIRST_GATE + k as u32);
        number(&mut bytes, literal - left.max(right));
        number(&mut bytes, left.max(right) - left.min(right));
    }
    bytes
}

#[cfg(test)]
mod tests {
    use super::*;

    #[test]
    fn two_gates() {
        // inputs 1 and 2, then the first gate and not input 1
        let gates = [2 + (4 << 32), 8194 + (3 << 32)];
        let file = file(&gates, 8197);
        let text = b"aig 4098 4096 0 1 2\n8197\n";
        assert!(file.starts_with(text));
        // 8194 - 4 = 8190, 4 - 2 = 2; 8196 - 8194 = 2, 8194 - 3 = 8191
        assert_eq!(file[text.len()..], [0xfe, 0x3f, 2, 2, 0xff, 0x3f]);
    }
}
