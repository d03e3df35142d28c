//! A list of pairs, some of them compared at a time.
use std::sync::Mutex;
use std::sync::atomic::{AtomicBool, AtomicUsize, Ordering};
use std::thread;

use crate::args::{self, Entry, Given};
use crate::compare::{self, Compared, Event, Wanted};
use crate::input::Input;
use crate::interrupt;

/// Bytes that are read of a list.
pub const MOST_BYTES: usize = 1 << 26;

/// The pairs of a list, each with its line. All lines that are wrong are told.
pub fn entries(text: &[u8], name: &str, defaults: &Given) -> Result<Vec<(usize, Entry)>, Vec<String>> {
    let Ok(text) = std::str::from_utf8(text) else { return Err(vec![format!("{name}: no text (UTF-8)")]) };
    let (mut entries, mut wrong) = (Vec::new(), Vec::new());
    for (k, line) in text.lines().enumerate() {
        match args::line(line, defaults) {
            Ok(entry) => entries.extend(entry.map(|entry| (k + 1, entry))),
            Err(message) => wrong.push(format!("{name}:{}: {message}", k + 1)),
        }
    }
    if !wrong.is_empty() {
        return Err(wrong);
    }
    if entries.is_empty() {
        return Err(vec![format!("{name}: it has no pair")]);
    }
    Ok(entries)
}

/// Compares all pairs, a number of them at a time; events are reported with the line of the list, one after another. Stops if `tell` asks for it,
/// and after an interrupt.
pub fn compare(entries: &[(usize, Entry)], jobs: usize, input: &Input, wanted: &Wanted, tell: impl FnMut(usize, &Event) -> bool + Send) -> Vec<Compared> {
    let (next, stop) = (AtomicUsize::new(0), AtomicBool::new(false));
    let tell = Mutex::new(tell);
    let done: Mutex<Vec<(usize, Vec<Compared>)>> = Mutex::default();
    let work = || {
        while !stop.load(Ordering::Relaxed) && !interrupt::interrupted() {
            let k = next.fetch_add(1, Ordering::Relaxed);
            let Some((line, entry)) = entries.get(k) else { break };
            let compared = compare::entry(entry, input, wanted, &mut |event| {
                let mut tell = tell.lock().expect("nothing panics while it tells");
                if !stop.load(Ordering::Relaxed) && !tell(*line, &event) {
                    stop.store(true, Ordering::Relaxed);
                }
            });
            done.lock().expect("nothing panics while it is held").push((k, compared));
        }
    };
    thread::scope(|scope| {
        for _ in 1..jobs.min(entries.len()) {
            scope.spawn(work);
        }
        work();
    });
    let mut done = done.into_inner().expect("nothing panics while it is held");
    done.sort_by_key(|(k, _)| *k);
    done.into_iter().flat_map(|(_, compared)| compared).collect()
}
