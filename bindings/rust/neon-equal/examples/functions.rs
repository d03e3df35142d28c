//! The functions of each object that is named: name, size, and either the sum of its bytes or why they are not read, and what is marked inside. For tests
//! that compare it with readelf and objdump.
use neon_equal::elf::Object;

fn main() {
    for path in std::env::args().skip(1) {
        let bytes = std::fs::read(&path).expect("the file can be read");
        match Object::read(&bytes) {
            Err(reason) => println!("{path}: {reason}"),
            Ok(object) => {
                for function in object.functions() {
                    let sum = object.code(function).map(|code| code.iter().fold(0u64, |sum, &byte| sum.wrapping_mul(31).wrapping_add(byte.into())));
                    let marks: Vec<String> = object.marks(function, [0, function.size]).unwrap_or_default().iter().map(|(at, mark)| format!("0x{at:x} {mark}")).collect();
                    println!("{}\t{}\t{}\t{}", function.name, function.size, sum.map_or_else(|reason| reason, |sum| sum.to_string()), marks.join("; "));
                }
            }
        }
    }
}
