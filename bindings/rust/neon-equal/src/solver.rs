//! Solvers as processes: what they are asked, what they may answer, and how long they have.
use std::io::{self, Read, Write};
use std::os::unix::fs::PermissionsExt;
use std::process::{Child, Command, Stdio};
use std::sync::Arc;
use std::sync::atomic::{AtomicBool, Ordering};
use std::sync::mpsc::{self, RecvTimeoutError, Sender};
use std::thread;
use std::time::{Duration, Instant};

use neon_terms::Registers;

/// Bytes that are read of a solver. 32 registers take less than 5,000.
const MOST_BYTES: usize = 1 << 16;

/// How often a wait looks whether it is still wanted.
const LOOK: Duration = Duration::from_millis(20);

#[derive(Debug, Clone, Copy, PartialEq, Eq, PartialOrd, Ord)]
pub enum Solver {
    Z3,
    Cvc5,
}

/// Why a solver decided nothing.
#[derive(Debug, Clone, Copy, PartialEq, Eq, PartialOrd, Ord)]
pub enum Why {
    NotThere,
    NotStarted,
    Time,
    Unknown,
    Unreadable,
    Wrong,
}

#[derive(Debug, PartialEq, Eq)]
pub enum Reply {
    Unsat,
    /// What the registers that were asked for hold; the others are 0.
    Sat(Box<Registers>),
    Nothing(Why),
}

impl Why {
    pub fn text(self) -> &'static str {
        match self {
            Self::NotThere => "is not on the path",
            Self::NotStarted => "could not be started",
            Self::Time => "gave no answer in time",
            Self::Unknown => "does not know",
            Self::Unreadable => "gave no readable answer",
            Self::Wrong => "was wrong",
        }
    }
}

impl Solver {
    pub const ALL: [Self; 2] = [Self::Z3, Self::Cvc5];

    pub fn of(name: &str) -> Option<Self> {
        Self::ALL.into_iter().find(|solver| solver.name() == name)
    }

    pub fn name(self) -> &'static str {
        match self {
            Self::Z3 => "z3",
            Self::Cvc5 => "cvc5",
        }
    }

    /// The solver gets the limit too, a second later, so that it ends even if this program was ended first.
    fn command(self, seconds: u64) -> Command {
        let mut command = Command::new(self.name());
        match self {
            Self::Z3 => command.args(["-smt2", "-in", &format!("-T:{}", seconds + 1)]),
            Self::Cvc5 => command.args(["--lang=smt2", "--produce-models", &format!("--tlimit={}", 1000 * (seconds + 1))]),
        };
        command
    }

    pub fn is_there(self) -> bool {
        let path = std::env::var_os("PATH").unwrap_or_default();
        let runs = |file: &std::path::Path| file.metadata().is_ok_and(|data| data.is_file() && data.permissions().mode() & 0o111 != 0);
        std::env::split_paths(&path).any(|folder| runs(&folder.join(self.name())))
    }
}

/// A process that ends with this value.
struct Running(Child);

impl Drop for Running {
    fn drop(&mut self) {
        // it may have ended by itself
        let _ = self.0.kill();
        let _ = self.0.wait();
    }
}

/// Starts a solver on a question; what it writes comes by the sender. Threads write and read: a solver that reads nothing, or writes without an end,
/// holds up nobody. They are not waited for, since a process that the solver started may keep a pipe open.
fn start(solver: Solver, question: &Arc<[u8]>, seconds: u64, replies: &Sender<(Solver, Vec<u8>)>) -> io::Result<Running> {
    let child = solver.command(seconds).stdin(Stdio::piped()).stdout(Stdio::piped()).stderr(Stdio::null()).spawn()?;
    let mut running = Running(child);
    let (Some(mut input), Some(output)) = (running.0.stdin.take(), running.0.stdout.take()) else { unreachable!("both are piped") };
    let (question, replies) = (Arc::clone(question), replies.clone());
    // a solver that stops reading answers on its own account
    thread::Builder::new().spawn(move || input.write_all(&question).unwrap_or_default())?;
    thread::Builder::new().spawn(move || {
        let mut bytes = Vec::new();
        // a read that fails ends what was written
        let _ = output.take(MOST_BYTES as u64 + 1).read_to_end(&mut bytes);
        let _ = replies.send((solver, bytes));
    })?;
    Ok(running)
}

/// Asks the solvers at the same time, until `take` says that a reply decides, `stop` is set or the time is over; then none runs any more.
pub fn ask(question: String, solvers: &[Solver], asked: &[u8], seconds: u64, stop: &AtomicBool, mut take: impl FnMut(Solver, Reply) -> bool) {
    let question: Arc<[u8]> = question.into_bytes().into();
    let (sender, replies) = mpsc::channel();
    let end = Instant::now() + Duration::from_secs(seconds);
    let mut running = Vec::new();
    for &solver in solvers {
        match start(solver, &question, seconds, &sender) {
            Ok(process) => running.push((solver, process)),
            Err(_) => _ = take(solver, Reply::Nothing(Why::NotStarted)),
        }
    }
    while !running.is_empty() && !stop.load(Ordering::Relaxed) && Instant::now() < end {
        match replies.recv_timeout(LOOK) {
            Ok((solver, bytes)) => {
                running.retain(|(other, _)| *other != solver);
                if take(solver, reply(&bytes, asked)) {
                    return;
                }
            }
            Err(RecvTimeoutError::Timeout) => {}
            Err(RecvTimeoutError::Disconnected) => unreachable!("a sender is held here"),
        }
    }
    for (solver, _) in running {
        take(solver, Reply::Nothing(Why::Time));
    }
}

/// The command that asks for the numbers of registers after the script's own.
pub fn get_value(asked: &[u8]) -> String {
    let names: Vec<String> = asked.iter().map(|register| format!("r{register}")).collect();
    format!("(get-value ({}))\n", names.join(" "))
}

/// What a solver wrote: `unsat`, and the error that there is no model to get; or `sat` and the model. All else is nothing.
fn reply(bytes: &[u8], asked: &[u8]) -> Reply {
    let text = std::str::from_utf8(bytes).ok().filter(|_| bytes.len() <= MOST_BYTES);
    match text.and_then(|text| text.split_once('\n')) {
        Some(("unsat", rest)) if rest.is_empty() || is_error(rest) => Reply::Unsat,
        Some(("sat", rest)) => model(rest, asked).map_or(Reply::Nothing(Why::Unreadable), |start| Reply::Sat(Box::new(start))),
        Some(("unknown", rest)) if rest.is_empty() || is_error(rest) => Reply::Nothing(Why::Unknown),
        Some(("timeout", "")) => Reply::Nothing(Why::Time),
        _ => Reply::Nothing(Why::Unreadable),
    }
}

/// One line `(error "...")`.
fn is_error(text: &str) -> bool {
    let inner = text.strip_prefix("(error \"").and_then(|text| text.strip_suffix("\")\n"));
    inner.is_some_and(|inner| !inner.contains(['\n', '"']))
}

/// `((r1 VALUE) (r2 VALUE))`, for each register that was asked for, in that order.
fn model(text: &str, asked: &[u8]) -> Option<Registers> {
    let spaced = text.replace('(', " ( ").replace(')', " ) ");
    let mut tokens = spaced.split_ascii_whitespace();
    let mut registers = Registers::default();
    is(tokens.next(), "(")?;
    for &register in asked {
        is(tokens.next(), "(")?;
        is(tokens.next(), &format!("r{register}"))?;
        registers.0[usize::from(register)] = value(&mut tokens)?;
        is(tokens.next(), ")")?;
    }
    is(tokens.next(), ")")?;
    tokens.next().is_none().then_some(registers)
}

fn is(token: Option<&str>, text: &str) -> Option<()> {
    (token == Some(text)).then_some(())
}

/// A number of 128 bits: `#x`, `#b` or `(_ bvN 128)`.
fn value<'a>(tokens: &mut impl Iterator<Item = &'a str>) -> Option<u128> {
    let token = tokens.next()?;
    let digits = |text: &str, base: u32| text.chars().all(|digit| digit.is_digit(base)).then(|| u128::from_str_radix(text, base).ok())?;
    if let Some(text) = token.strip_prefix("#x") {
        return digits(text, 16).filter(|_| text.len() == 32);
    }
    if let Some(text) = token.strip_prefix("#b") {
        return digits(text, 2).filter(|_| text.len() == 128);
    }
    is(Some(token), "(")?;
    is(tokens.next(), "_")?;
    let number = digits(tokens.next()?.strip_prefix("bv")?, 10)?;
    is(tokens.next(), "128")?;
    is(tokens.next(), ")")?;
    Some(number)
}

#[cfg(test)]
mod tests {
    use super::*;

    const X: &str = "#x000000000000000000000000000000ff";

    fn sat(text: &str) -> Reply {
        reply(format!("sat\n{text}").as_bytes(), &[1, 30])
    }

    #[test]
    fn answers_of_both_solvers() {
        let mut start = Registers::default();
        (start.0[1], start.0[30]) = (255, 5);
        assert_eq!(sat(&format!("((r1 {X})\n (r30 (_ bv5 128)))\n")), Reply::Sat(Box::new(start)));
        assert_eq!(sat(&format!("((r1 #b{:0128b}) (r30 #x{:032x}))\n", 255, 5)), Reply::Sat(Box::new(start)));
        for text in ["unsat\n", "unsat\n(error \"line 6 column 18: model is not available\")\n"] {
            assert_eq!(reply(text.as_bytes(), &[1]), Reply::Unsat);
        }
        assert_eq!(reply(b"unknown\n", &[1]), Reply::Nothing(Why::Unknown));
    }

    #[test]
    fn all_else_is_nothing() {
        let unreadable = Reply::Nothing(Why::Unreadable);
        let two_errors = "unsat\n(error \"a\")\n(error \"b\")\n";
        for text in ["", "unsat", "UNSAT\n", " unsat\n", "unsat\nsat\n", "unsat\nunsat\n", "sat\n", "(error \"unsat\")\n", two_errors] {
            assert_eq!(reply(text.as_bytes(), &[1]), unreadable, "{text:?}");
        }
        for text in [
            format!("((r1 {X}))\n"), format!("((r30 {X}) (r1 {X}))\n"), format!("((r1 {X}) (r30 {X})) x\n"), format!("((r1 {X}) (r30 #xff))\n"),
            format!("((r1 {X}) (r30 (_ bv5 64)))\n"), format!("((r1 {X}) (r30 (_ bv+5 128)))\n"), format!("((r1 {X}) (r30 #x{:0>32}))\n", "+5"),
            format!("((r1 {X}) (r30 (_ bv{} 128)))\n", "9".repeat(40)), "((r1 #b) (r30 #b))\n".to_string(), "()\n".to_string(),
        ] {
            assert_eq!(sat(&text), unreadable, "{text}");
        }
        assert_eq!(reply(&[b'x'; MOST_BYTES + 1], &[1]), unreadable);
        assert_eq!(reply(b"unsat\n\xff", &[1]), unreadable);
    }
}
