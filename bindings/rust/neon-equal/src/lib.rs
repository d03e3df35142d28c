//! neon-equal: do two routines leave the same in the registers that count? `neon-equal --help` tells how it is called.
//!
//! [`run`] is the whole program on streams that are lent. `args` and `values` read the call; `input`, `elf` and `frame` files, and `foreign` and `second`
//! name what is not taken; `compare` says which registers count and goes through the `stages`; `show` and `explain` take a difference apart; `output`
//! and `report` write.
mod answer;
mod args;
mod compare;
pub mod elf;
mod explain;
mod foreign;
mod frame;
mod input;
mod json;
mod lanes;
mod list;
mod output;
mod pair;
mod report;
mod runs;
mod second;
mod show;
mod solver;
mod stages;
mod starts;
mod values;
mod verdict;

use std::ffi::OsString;
use std::fs::File;
use std::io::{self, Read};
use std::path::Path;
use std::sync::Mutex;

use args::{Pairs, Run, Wanted};
use compare::{Compared, Event};
use input::Input;
pub use frame::text as instruction_text;
pub use output::Streams;
use output::Style;
use verdict::Verdict;

/// No answer was given: the call or a file was refused, or the answer could not be written.
pub const REFUSED: u8 = 3;

/// The version of the program, the commit it is built from, and the library with the kit that proved it.
pub fn version() -> String {
    let library = neon_terms::check_version().unwrap_or_else(|wrong| wrong.archive);
    format!(
        "neon-equal {} (commit {}; library {library}; kit {})",
        env!("CARGO_PKG_VERSION"),
        env!("NEON_EQUAL_COMMIT"),
        env!("NEON_EQUAL_KIT")
    )
}

/// A call on lent streams, with the exit status. `starts` is how many runs are made of each pair, None for the usual number.
pub fn run(args: impl Iterator<Item = OsString>, input: &mut (dyn Read + Send), streams: &mut Streams, starts: Option<usize>) -> u8 {
    let done = match args::parse(args, starts) {
        Ok(Wanted::Help) => write_all(streams, args::HELP).map(|()| 0),
        Ok(Wanted::Version) => write_all(streams, &format!("{}\n", version())).map(|()| 0),
        Ok(Wanted::Run(run)) => match neon_terms::check_version() {
            Ok(_) => compare_all(&run, &Mutex::new(input), streams),
            Err(wrong) => Err(vec![wrong.to_string()]),
        },
        Err(message) => Err(vec![format!("{message}; neon-equal --help tells more")]),
    };
    done.unwrap_or_else(|messages| {
        for message in messages {
            // if standard error fails too, the status shows it
            let _ = writeln!(streams.error, "neon-equal: {message}");
        }
        REFUSED
    })
}

fn written(error: io::Error) -> Vec<String> {
    vec![format!("standard output: {error}")]
}

fn write_all(streams: &mut Streams, text: &str) -> Result<(), Vec<String>> {
    streams.out.write_all(text.as_bytes()).and_then(|()| streams.out.flush()).map_err(written)
}

/// A list's bytes.
fn read_list(file: &Path, input: &Input) -> Result<Vec<u8>, Vec<String>> {
    let name = file.display();
    let mut bytes = Vec::new();
    let most = list::MOST_BYTES as u64 + 1;
    let read = if file == Path::new("-") {
        input.lock().expect("no reader panics").take(most).read_to_end(&mut bytes)
    } else {
        File::open(file).and_then(|list| list.take(most).read_to_end(&mut bytes))
    };
    read.map_err(|error| vec![format!("{name}: {error}")])?;
    if bytes.len() > list::MOST_BYTES {
        return Err(vec![format!("{name}: it has more than {} bytes", list::MOST_BYTES)]);
    }
    Ok(bytes)
}

fn compare_all(run: &Run, input: &Input, streams: &mut Streams) -> Result<u8, Vec<String>> {
    let (style, mut failed, mut several) = (style(run), None, false);
    // after a failure nothing more is written
    let mut tell = |number: usize, event: &Event| {
        several |= matches!(event, Event::End(_, Some(_)));
        if failed.is_none() {
            failed = streams.event(event, style, number).err();
        }
        failed.is_none()
    };
    let all = match &run.pairs {
        Pairs::One(entry) => compare::entry(entry, input, run.explain, &mut |event| _ = tell(0, &event)),
        Pairs::List { file, jobs, defaults } => {
            let entries = list::entries(&read_list(file, input)?, &file.to_string_lossy(), defaults)?;
            list::compare(&entries, *jobs, input, run.explain, tell)
        }
    };
    if let Some(error) = failed {
        return Err(written(error));
    }
    let Some((first, others)) = all.split_first() else { return Err(vec!["nothing was compared".to_string()]) };
    let verdict = Verdict::of(first.verdict, others.iter().map(|compared| compared.verdict));
    write_files(run, &all)?;
    let several = several || matches!(run.pairs, Pairs::List { .. });
    streams.last(&all, verdict, style, several).map_err(written)?;
    Ok(verdict.status())
}

fn style(run: &Run) -> Style {
    let list = matches!(run.pairs, Pairs::List { .. });
    match run.json {
        true => Style::Json { list },
        false if list => Style::List,
        false => Style::Lines,
    }
}

/// The report, and the start of the first difference.
fn write_files(run: &Run, all: &[Compared]) -> Result<(), Vec<String>> {
    let write = |path: &Path, text: &str| std::fs::write(path, text).map_err(|error| vec![format!("{}: {error}", path.display())]);
    if let Some(path) = &run.report {
        write(path, &report::page(all, &version()))?;
    }
    let shown = all.iter().flat_map(|compared| &compared.told).find_map(|told| told.shown.as_ref());
    if let (Some(path), Some(shown)) = (&run.replay, shown) {
        write(path, &shown.replay())?;
    }
    Ok(())
}
