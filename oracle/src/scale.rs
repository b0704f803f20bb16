//! The comparison at scale: the proved library against the original, on random sessions. README.md
//! describes it.

mod blocks;
mod counts;
mod found;
mod judge;
mod lanes;
mod lent;
mod machine;
mod ops;
mod original;
mod ported;
mod progress;
mod readings;
pub mod records;
mod session;
mod set_ups;
mod sheet;
mod shrink;
mod write;

use std::time::Instant;

use crate::compare::{Report, SEED};
use counts::{Counts, table};
use found::{Found, Ours, play};
use judge::library;
use lanes::Lane;
use progress::Progress;

/// The symbols if neither they nor the seconds are given.
const SYMBOLS: u64 = 100_000_000;

/// What is asked for.
#[derive(Debug, Default, PartialEq)]
struct Options {
    seed: u64,
    /// It ends after so many seconds or symbols, whichever comes first.
    seconds: Option<u64>,
    symbols: Option<u64>,
    /// The one session that is made again.
    session: Option<u64>,
}

/// The command; none if its options cannot be read.
pub fn scale(words: &[&str]) -> Option<Report> {
    Some(run(&options(words)?, library))
}

/// `--seed`, `--seconds`, `--symbols` and `--session` in any order, each with a number.
fn options(words: &[&str]) -> Option<Options> {
    let mut options = Options {
        seed: SEED,
        ..Options::default()
    };
    for option in words.chunks(2) {
        let [name, value] = option else { return None };
        let number = value.parse().ok()?;
        match *name {
            "--seed" => options.seed = number,
            "--seconds" => options.seconds = Some(number),
            "--symbols" => options.symbols = Some(number),
            "--session" => options.session = Some(number),
            _ => return None,
        }
    }
    if options.seconds.is_none() {
        options.symbols.get_or_insert(SYMBOLS);
    }
    Some(options)
}

/// Plays sessions until there is enough, or until one differs; that one is shrunk.
fn run(options: &Options, ours: Ours) -> Report {
    let start = Instant::now();
    let mut progress = Progress::new(start);
    let mut rows = vec![Counts::default(); Lane::all().len()];
    let first = options.session.unwrap_or(0);
    let mut next = first;
    let mut found = None;
    while found.is_none() && !enough(options, start, next - first, &rows) {
        found = play(options.seed, next, ours, &mut rows);
        progress.show(&rows, u64::from(found.is_some()));
        next += 1;
    }
    progress.end(&rows, u64::from(found.is_some()));
    let seconds = start.elapsed().as_secs_f64();
    let mut text = format!(
        "seed {}, sessions {first} to {}, {seconds:.1} s\n{}",
        options.seed,
        next - 1,
        table(&rows)
    );
    let clean = found.is_none();
    text += &match found {
        None => "no difference\n".to_string(),
        Some(found) => differing(found, next - 1, ours),
    };
    Report { text, clean }
}

/// Whether it ends here.
fn enough(options: &Options, start: Instant, played: u64, rows: &[Counts]) -> bool {
    if options.session.is_some() {
        return played == 1;
    }
    let symbols: u64 = rows.iter().map(|row| row.symbols).sum();
    let late = options
        .seconds
        .is_some_and(|end| start.elapsed().as_secs() >= end);
    late || options.symbols.is_some_and(|end| symbols >= end)
}

/// The text about a session that differs, shrunk.
fn differing(found: Found, index: u64, ours: Ours) -> String {
    let (name, before) = (found.lane.name(), found.ops.len());
    let (found, tries) = found.shrunk(ours);
    format!(
        "DIFFERENCE in session {index} ({name}), shrunk from {before} operations to {} in {tries} \
         tries:\n{}",
        found.ops.len(),
        found.text()
    )
}

#[cfg(test)]
mod tests;
