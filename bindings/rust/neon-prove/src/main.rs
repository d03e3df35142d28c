//! The program neon-prove: the library's `run` on the standard streams.
use std::io;
use std::panic;
use std::process::ExitCode;

use neon_prove::{REFUSED, Streams, run, watch_interrupts};

fn main() -> ExitCode {
    watch_interrupts();
    let call = || {
        let mut streams = Streams { out: &mut io::stdout(), error: &mut io::stderr() };
        run(std::env::args_os().skip(1), &mut io::stdin(), &mut streams, None)
    };
    // a panic is a fault of this program, and no answer
    ExitCode::from(panic::catch_unwind(call).unwrap_or(REFUSED))
}
