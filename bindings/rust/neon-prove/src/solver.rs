//! Solvers as processes: what they are asked, what they may answer, and how long they have.
use std::collections::hash_map::RandomState;
use std::hash::{BuildHasher, Hasher};
use std::io::{self, BufRead, BufReader, Read, Write};
use std::os::unix::fs::PermissionsExt;
use std::os::unix::process::{CommandExt, ExitStatusExt};
use std::process::{Child, ChildStderr, ChildStdin, ChildStdout, Command, Stdio};
use std::sync::atomic::{AtomicBool, Ordering};
use std::sync::mpsc::{self, RecvTimeoutError, Sender};
use std::sync::{Arc, Mutex};
use std::thread;
use std::time::{Duration, Instant};

use neon_terms::Registers;

use crate::interrupt;
use crate::reply::{get_value, reply};

/// Bytes that are read of a solver. 32 registers take less than 5,000.
pub const MOST_BYTES: usize = 1 << 16;

/// Bytes of its first line on standard error that are kept.
const MOST_ERROR: u64 = 200;

/// How often a wait looks whether it is still wanted, and how long a solver may take to end after its answer.
const LOOK: Duration = Duration::from_millis(20);
const END: Duration = Duration::from_secs(1);

const SIGKILL: i32 = 9;
const PR_SET_PDEATHSIG: i32 = 1;

unsafe extern "C" {
    fn prctl(option: i32, ...) -> i32;
    fn kill(process: i32, signal: i32) -> i32;
}

#[derive(Debug, Clone, Copy, PartialEq, Eq, PartialOrd, Ord)]
pub enum Solver {
    Z3,
    Cvc5,
}

/// Why a solver decided nothing.
#[derive(Debug, Clone, PartialEq, Eq, PartialOrd, Ord)]
pub enum Why {
    NotStarted(String),
    Time,
    Unknown,
    /// With its first line on standard error.
    Unreadable(String),
    /// A read failed.
    Unread(String),
    Killed(i32),
    NotEnded,
    Wrong,
    /// It says equal, and answers may rest on proofs only.
    NotBelieved,
    /// It says equal, and the others do not.
    Alone,
}

#[derive(Debug, PartialEq, Eq)]
pub enum Reply {
    Unsat,
    /// What the registers that were asked for hold; the others are 0.
    Sat(Box<Registers>),
    Nothing(Why),
}

impl Why {
    pub fn text(&self) -> String {
        match self {
            Self::NotStarted(error) => format!("could not be started ({error})"),
            Self::Time => "gave no answer in time".to_string(),
            Self::Unknown => "does not know".to_string(),
            Self::Unreadable(error) if error.is_empty() => "gave no readable answer".to_string(),
            Self::Unreadable(error) => format!("gave no readable answer ({error})"),
            Self::Unread(error) => format!("could not be read ({error})"),
            Self::Killed(signal) => format!("died of signal {signal}"),
            Self::NotEnded => "did not end after its answer".to_string(),
            Self::Wrong => "was wrong".to_string(),
            Self::NotBelieved => "says equal, which is not believed (--trust proofs)".to_string(),
            Self::Alone => "says equal, and is alone with it (--agree)".to_string(),
        }
    }
}

impl Solver {
    pub const ALL: [Self; 2] = [Self::Z3, Self::Cvc5];

    pub fn of(name: &str) -> Option<Self> {
        Self::ALL.into_iter().find(|solver| solver.name() == name)
    }

    pub fn name(self) -> &'static str {
        match self {
            Self::Z3 => "z3",
            Self::Cvc5 => "cvc5",
        }
    }

    /// The solver gets the limit too, a second later, so that it ends even if this program was ended first.
    fn command(self, seconds: u64) -> Command {
        let mut command = Command::new(self.name());
        match self {
            Self::Z3 => command.args(["-smt2", "-in", &format!("-T:{}", seconds + 1)]),
            Self::Cvc5 => command.args(["--lang=smt2", "--produce-models", &format!("--tlimit={}", 1000 * (seconds + 1))]),
        };
        // SAFETY: prctl is a system call and may be made between fork and exec
        unsafe { command.pre_exec(|| if prctl(PR_SET_PDEATHSIG, SIGKILL as u64) == 0 { Ok(()) } else { Err(io::Error::last_os_error()) }) };
        // a group of its own, so that what it starts ends with it
        command.process_group(0).stdin(Stdio::piped()).stdout(Stdio::piped()).stderr(Stdio::piped());
        command
    }

    pub fn is_there(self) -> bool {
        let path = std::env::var_os("PATH").unwrap_or_default();
        let runs = |file: &std::path::Path| file.metadata().is_ok_and(|data| data.is_file() && data.permissions().mode() & 0o111 != 0);
        std::env::split_paths(&path).any(|folder| runs(&folder.join(self.name())))
    }
}

/// A process that ends with this value, and the first line that it writes to standard error.
struct Running {
    child: Child,
    error: Arc<Mutex<String>>,
    ended: bool,
}

impl Drop for Running {
    fn drop(&mut self) {
        if let (false, Ok(group)) = (self.ended, i32::try_from(self.child.id())) {
            // SAFETY: the child is not waited for yet, so the number is its own
            unsafe { kill(-group, SIGKILL) };
            let _ = self.child.wait();
        }
    }
}

impl Running {
    /// Why its answer does not count, by the way it ended.
    fn ended(&mut self) -> Option<Why> {
        let end = Instant::now() + END;
        loop {
            match self.child.try_wait() {
                Ok(Some(status)) => {
                    self.ended = true;
                    return status.signal().map(Why::Killed);
                }
                Ok(None) if Instant::now() < end => thread::sleep(LOOK / 20),
                Ok(None) => return Some(Why::NotEnded),
                Err(error) => return Some(Why::Unread(error.to_string())),
            }
        }
    }

    fn first_error(&self) -> String {
        self.error.lock().map(|line| line.clone()).unwrap_or_default()
    }
}

type Written = io::Result<Vec<u8>>;

/// Starts a solver on a question; what it writes comes by the sender. Threads write and read: a solver that reads nothing, or writes without an end,
/// holds up nobody. They are not waited for, since a process that the solver started may keep a pipe open.
fn start(solver: Solver, question: &Arc<[u8]>, seconds: u64, replies: &Sender<(Solver, Written)>) -> io::Result<Running> {
    let child = solver.command(seconds).spawn()?;
    let mut running = Running { child, error: Arc::default(), ended: false };
    let (input, output, error) = (running.child.stdin.take(), running.child.stdout.take(), running.child.stderr.take());
    let (Some(input), Some(output), Some(error)) = (input, output, error) else { unreachable!("all three are piped") };
    let (question, replies, line) = (Arc::clone(question), replies.clone(), Arc::clone(&running.error));
    thread::Builder::new().spawn(move || write(input, &question))?;
    thread::Builder::new().spawn(move || first_line(error, &line))?;
    thread::Builder::new().spawn(move || replies.send((solver, read(output))))?;
    Ok(running)
}

/// A solver that stops reading gives no echo, so a write that fails needs no report.
fn write(mut input: ChildStdin, question: &[u8]) {
    let _ = input.write_all(question);
}

fn read(output: ChildStdout) -> Written {
    let mut bytes = Vec::new();
    output.take(MOST_BYTES as u64 + 1).read_to_end(&mut bytes)?;
    Ok(bytes)
}

/// Keeps the first line, and reads the rest, so that nobody waits for it.
fn first_line(error: ChildStderr, line: &Mutex<String>) {
    let mut reader = BufReader::new(error);
    let mut bytes = Vec::new();
    let read = reader.by_ref().take(MOST_ERROR).read_until(b'\n', &mut bytes);
    let text = match read {
        Ok(_) => String::from_utf8_lossy(bytes.trim_ascii()).into_owned(),
        Err(error) => error.to_string(),
    };
    if let Ok(mut line) = line.lock() {
        *line = text;
    }
    let _ = io::copy(&mut reader, &mut io::sink());
}

/// A word that no solver knows before it is asked to write it.
fn fresh() -> String {
    let mut hasher = RandomState::new().build_hasher();
    hasher.write(b"neon-prove");
    format!("neon-prove-{:016x}", hasher.finish())
}

/// Asks the solvers at the same time, until `take` says that a reply decides, `stop` is set or the time is over; then none runs any more. A script asks
/// about the registers in `asked`; after its answer a solver has to write a fresh word.
pub fn ask(script: &str, solvers: &[Solver], asked: &[u8], time: Duration, stop: &AtomicBool, mut take: impl FnMut(Solver, Reply) -> bool) {
    let word = fresh();
    let question: Arc<[u8]> = format!("{script}(echo \"{word}\")\n{}", get_value(asked)).into_bytes().into();
    let (sender, replies) = mpsc::channel();
    let end = Instant::now() + time;
    let mut running = Vec::new();
    for &solver in solvers {
        match start(solver, &question, time.as_secs(), &sender) {
            Ok(process) => running.push((solver, process)),
            Err(error) => _ = take(solver, Reply::Nothing(Why::NotStarted(error.to_string()))),
        }
    }
    while !running.is_empty() && !stop.load(Ordering::Relaxed) && !interrupt::interrupted() && Instant::now() < end {
        match replies.recv_timeout(LOOK) {
            Ok((solver, written)) => {
                let Some(at) = running.iter().position(|(other, _)| *other == solver) else { continue };
                let (_, mut process) = running.swap_remove(at);
                if take(solver, answered(&mut process, written, &word, asked)) {
                    return;
                }
            }
            Err(RecvTimeoutError::Timeout) => {}
            Err(RecvTimeoutError::Disconnected) => unreachable!("a sender is held here"),
        }
    }
    for (solver, _) in running {
        take(solver, Reply::Nothing(Why::Time));
    }
}

/// What a solver that closed its output said, unless it died of a signal.
fn answered(process: &mut Running, written: Written, word: &str, asked: &[u8]) -> Reply {
    let ended = process.ended();
    match (written, ended) {
        (Err(error), _) => Reply::Nothing(Why::Unread(error.to_string())),
        (Ok(_), Some(why)) => Reply::Nothing(why),
        (Ok(bytes), None) => match reply(&bytes, word, asked) {
            Reply::Nothing(Why::Unreadable(_)) => Reply::Nothing(Why::Unreadable(process.first_error())),
            reply => reply,
        },
    }
}

#[cfg(test)]
mod tests {
    use super::fresh;

    #[test]
    fn words_are_fresh() {
        assert_ne!(fresh(), fresh());
    }
}
