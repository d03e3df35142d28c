//! neon-prove: do two routines leave the same in the registers that count? `neon-prove --help` tells how it is called.
//!
//! [`run`] is the whole program on streams that are lent. `args` and `values` read the call; `input`, `elf` and `frame` files, and `foreign` and `second`
//! name what is not taken; `compare` says which registers count and goes through the `stages`: `runs`, `gates` with `asked` and `search`, and `lanes`
//! with `solver`. `show` and `explain` take a difference apart; `output` and `report` write, and `certificate` keeps what shows an answer. What does not
//! differ from neon-equal is in its folder.
mod answer;
mod args;
mod asked;
mod certificate;
mod compare;
#[path = "../../neon-equal/src/elf.rs"]
pub mod elf;
#[path = "../../neon-equal/src/explain.rs"]
mod explain;
#[path = "../../neon-equal/src/foreign.rs"]
mod foreign;
#[path = "../../neon-equal/src/frame.rs"]
mod frame;
mod gates;
#[path = "../../neon-equal/src/input.rs"]
mod input;
mod interrupt;
#[path = "../../neon-equal/src/json.rs"]
mod json;
mod lanes;
mod list;
pub mod measure;
#[path = "../../neon-equal/src/output.rs"]
mod output;
#[path = "../../neon-equal/src/pair.rs"]
mod pair;
mod progress;
mod reply;
#[path = "../../neon-equal/src/report.rs"]
mod report;
#[path = "../../neon-equal/src/runs.rs"]
mod runs;
mod search;
#[path = "../../neon-equal/src/second.rs"]
mod second;
#[path = "../../neon-equal/src/show.rs"]
mod show;
mod solver;
mod stages;
#[path = "../../neon-equal/src/starts.rs"]
mod starts;
#[path = "../../neon-equal/src/values.rs"]
mod values;
#[path = "../../neon-equal/src/verdict.rs"]
mod verdict;

use std::ffi::OsString;
use std::fs::File;
use std::io::{self, Read};
use std::path::Path;
use std::sync::Mutex;

use args::{Pairs, Run, Wanted};
use certificate::Certificates;
use compare::{Compared, Event};
use input::Input;
pub use frame::text as instruction_text;
pub use interrupt::watch as watch_interrupts;
pub use output::Streams;
use output::Style;
use verdict::Verdict;

/// No answer was given: the call or a file was refused, or the answer could not be written.
pub const REFUSED: u8 = 3;

/// The version of the program, the commit it is built from, and the library with the kit that proved it.
pub fn version() -> String {
    let library = neon_terms::check_version().unwrap_or_else(|wrong| wrong.archive);
    format!(
        "neon-prove {} (commit {}; library {library}; kit {})",
        env!("CARGO_PKG_VERSION"),
        env!("NEON_EQUAL_COMMIT"),
        env!("NEON_EQUAL_KIT")
    )
}

/// A call on lent streams, with the exit status. `starts` is how many runs are made of each pair, None for the usual number.
pub fn run(args: impl Iterator<Item = OsString>, input: &mut (dyn Read + Send), streams: &mut Streams, starts: Option<usize>) -> u8 {
    let done = match args::parse(args, starts) {
        Ok(Wanted::Help) => write_all(streams, args::HELP).map(|()| 0),
        Ok(Wanted::Version) => write_all(streams, &format!("{}\n", version())).map(|()| 0),
        Ok(Wanted::Run(run)) => match neon_terms::check_version() {
            Ok(_) => compare_all(&run, &Mutex::new(input), streams),
            Err(wrong) => Err(vec![wrong.to_string()]),
        },
        Ok(Wanted::Check(folder)) => match neon_terms::check_version() {
            Ok(_) => certificate::check(&folder, streams),
            Err(wrong) => Err(vec![wrong.to_string()]),
        },
        Err(message) => Err(vec![format!("{message}; neon-prove --help tells more")]),
    };
    done.unwrap_or_else(|messages| {
        for message in messages {
            // if standard error fails too, the status shows it
            let _ = writeln!(streams.error, "neon-prove: {message}");
        }
        REFUSED
    })
}

fn written(error: io::Error) -> Vec<String> {
    vec![format!("standard output: {error}")]
}

fn write_all(streams: &mut Streams, text: &str) -> Result<(), Vec<String>> {
    streams.out.write_all(text.as_bytes()).and_then(|()| streams.out.flush()).map_err(written)
}

/// A list's bytes.
fn read_list(file: &Path, input: &Input) -> Result<Vec<u8>, Vec<String>> {
    let name = file.display();
    let mut bytes = Vec::new();
    let most = list::MOST_BYTES as u64 + 1;
    let read = if file == Path::new("-") {
        input.lock().expect("no reader panics").take(most).read_to_end(&mut bytes)
    } else {
        File::open(file).and_then(|list| list.take(most).read_to_end(&mut bytes))
    };
    read.map_err(|error| vec![format!("{name}: {error}")])?;
    if bytes.len() > list::MOST_BYTES {
        return Err(vec![format!("{name}: it has more than {} bytes", list::MOST_BYTES)]);
    }
    Ok(bytes)
}

fn compare_all(run: &Run, input: &Input, streams: &mut Streams) -> Result<u8, Vec<String>> {
    let certificates = run.certificate.as_deref().map(Certificates::new).transpose().map_err(|message| vec![message])?;
    let wanted = compare::Wanted { explain: run.explain, certificates };
    let (style, mut failed, mut several) = (style(run), None, false);
    // after a failure nothing more is written
    let mut tell = |number: usize, event: &Event| {
        several |= matches!(event, Event::End(_, Some(_)));
        if failed.is_none() {
            failed = streams.event(event, style, number).err();
        }
        failed.is_none()
    };
    let all = match &run.pairs {
        Pairs::One(entry) => compare::entry(entry, input, &wanted, &mut |event| _ = tell(0, &event)),
        Pairs::List { file, jobs, defaults } => {
            let entries = list::entries(&read_list(file, input)?, &file.to_string_lossy(), defaults)?;
            list::compare(&entries, *jobs, input, &wanted, tell)
        }
    };
    if let Some(error) = failed {
        return Err(written(error));
    }
    // after an interrupt some pairs of a list may be left
    let left = interrupt::interrupted().then_some(Verdict::NotDecided);
    let mut verdicts = all.iter().map(|compared| compared.verdict).chain(left);
    let Some(first) = verdicts.next() else { return Err(vec!["nothing was compared".to_string()]) };
    let verdict = Verdict::of(first, verdicts);
    write_files(run, &all)?;
    if let Some(message) = wanted.certificates.as_ref().and_then(Certificates::failed) {
        return Err(vec![message]);
    }
    let several = several || matches!(run.pairs, Pairs::List { .. });
    streams.last(&all, verdict, style, several).map_err(written)?;
    Ok(verdict.status())
}

fn style(run: &Run) -> Style {
    let list = matches!(run.pairs, Pairs::List { .. });
    match run.json {
        true => Style::Json { list },
        false if list => Style::List,
        false => Style::Lines,
    }
}

/// The report, and the start of the first difference.
fn write_files(run: &Run, all: &[Compared]) -> Result<(), Vec<String>> {
    let write = |path: &Path, text: &str| std::fs::write(path, text).map_err(|error| vec![format!("{}: {error}", path.display())]);
    if let Some(path) = &run.report {
        write(path, &report::page(all, &version()))?;
    }
    let shown = all.iter().flat_map(|compared| &compared.told).find_map(|told| told.shown.as_ref());
    if let (Some(path), Some(shown)) = (&run.replay, shown) {
        write(path, &shown.replay())?;
    }
    Ok(())
}
