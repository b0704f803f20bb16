//! Builds the original timing and carrier loops unchanged and plays operations against them.
//! README.md says how it is used.

use std::fs;
use std::io::{self, BufWriter, Read, Write};
use std::path::Path;
use std::process::ExitCode;

// The original files and the stand-ins beside them, as the build script found them. They name
// each other from the crate's root, so they stand at this crate's root.
include!(concat!(env!("OUT_DIR"), "/original.rs"));

mod bits;
mod carrier_runs;
mod compare;
mod cuts;
mod fields;
mod floats;
mod lines;
mod numbers;
mod oscillator;
mod play;
mod random;
mod receiver_runs;
mod refusal;
mod runs;
#[cfg(feature = "ported")]
mod scale;
mod script;
mod signal;
#[cfg(feature = "ported")]
mod speed;
mod states;
mod tapes;
mod theory;

/// The original's first implementation, the one that is ported.
pub struct Fallback;
/// The original's second implementation.
pub struct Reference;

const USAGE: &str = "\
usage: oracle play [--reference] SCRIPT   plays a script ('-' reads standard input)
       oracle compare [--seed S] [--symbols N]
       oracle cuts [--seed S] [--symbols N]
       oracle numbers                     writes the recorded answers of the number operations
       oracle oscillator                  writes those of the oscillator and the phase steps
       oracle runs                        writes those of the timing loop
       oracle carrier                     writes those of the carrier loop
       oracle receiver                    writes those of the receiver
       oracle library                     writes those of the functions that the static library exports
       oracle tapes [--reference] [[--seed S] --tapes N]
                                          writes the frames of the recorded order tapes, or of N random ones
       oracle record FOLDER               writes all recorded answers, FOLDER/NAME/stdin each
       oracle detector-gain               measures the detector gain of common pulses
       oracle carrier-offset              measures what a carrier that is off does to each timing detector
       oracle pull-in                     measures how quick and how noisy the loops are
       oracle working-range               measures in which range the values of receive_recording work
       oracle scale [--seed S] [--seconds N | --symbols N | --session K]
                                          compares the ported loops with the original's (feature 'ported')
       oracle speed [--fine | --into FILE]
                                          times the ported loops (feature 'ported'), with more decimals
                                          (--fine); writes the tables into FILE too, between its two lines";

/// Makes one file of recorded answers.
type Make = fn() -> Vec<u8>;

/// Recorded answers: the folder that each file goes to, and what makes it. All but the frames are text.
const RECORDED: [(&str, Make); 6] = [
    ("operations_replay", || operations().into_bytes()),
    ("timing_replay", || runs::recorded().into_bytes()),
    ("carrier_replay", || carrier_runs::recorded().into_bytes()),
    ("receiver_replay", || receiver_runs::recorded().into_bytes()),
    ("library_replay", || receiver_runs::exported().into_bytes()),
    ("tape_replay", tapes::recorded),
];

/// The recorded answers of all operations that are one line each.
fn operations() -> String {
    numbers::recorded() + &oscillator::recorded()
}

fn main() -> ExitCode {
    let words: Vec<String> = std::env::args().skip(1).collect();
    let words: Vec<&str> = words.iter().map(String::as_str).collect();
    let done = match words[..] {
        ["play", script] => play_file(Fallback, script),
        ["play", "--reference", script] => play_file(Reference, script),
        ["compare", ref options @ ..] => as_asked(options, compare::compare),
        ["cuts", ref options @ ..] => as_asked(options, cuts::cuts),
        ["numbers"] => write_out(&numbers::recorded()),
        ["oscillator"] => write_out(&oscillator::recorded()),
        ["runs"] => write_out(&runs::recorded()),
        ["carrier"] => write_out(&carrier_runs::recorded()),
        ["receiver"] => write_out(&receiver_runs::recorded()),
        ["library"] => write_out(&receiver_runs::exported()),
        ["tapes", ref options @ ..] => match tapes::Options::read(options) {
            Some(options) => write_tapes(&options),
            None => Err(USAGE.to_string()),
        },
        ["record", folder] => record(Path::new(folder)),
        #[cfg(feature = "ported")]
        ["scale", ref options @ ..] => match scale::scale(options) {
            Some(report) => tell(&report),
            None => Err(USAGE.to_string()),
        },
        #[cfg(feature = "ported")]
        ["speed"] => tell(&speed::speed(speed::PLAIN)),
        #[cfg(feature = "ported")]
        ["speed", "--fine"] => tell(&speed::speed(speed::FINE)),
        #[cfg(feature = "ported")]
        ["speed", "--into", file] => {
            speed::speed_into(Path::new(file)).and_then(|report| tell(&report))
        }
        [name] => theory::tables(name).map_or(Err(USAGE.to_string()), |text| write_out(&text)),
        _ => Err(USAGE.to_string()),
    };
    match done {
        Ok(code) => code,
        Err(message) => {
            eprintln!("{message}");
            ExitCode::from(2)
        }
    }
}

fn play_file<K: play::Kernel>(kernel: K, script: &str) -> Result<ExitCode, String> {
    let text = if script == "-" {
        let mut text = String::new();
        let read = io::stdin().read_to_string(&mut text);
        read.map(|_| text)
    } else {
        fs::read_to_string(script)
    };
    let text = text.map_err(|error| format!("{script}: {error}"))?;
    let mut answers = String::new();
    let end = play::play(kernel, &text, &mut answers);
    write_out(&answers)?;
    end.map(|()| ExitCode::SUCCESS)
}

/// A comparison, with `--seed` and `--symbols` in any order.
fn as_asked(options: &[&str], make: fn(u64, u64) -> compare::Report) -> Result<ExitCode, String> {
    let (mut seed, mut symbols) = (compare::SEED, compare::SYMBOLS);
    for option in options.chunks(2) {
        let [name, value] = option else {
            return Err(USAGE.to_string());
        };
        let number: u64 = value.parse().map_err(|_| USAGE.to_string())?;
        match *name {
            "--seed" => seed = number,
            "--symbols" => symbols = number,
            _ => return Err(USAGE.to_string()),
        }
    }
    tell(&make(seed, symbols))
}

/// Writes a report; the status says whether it is clean.
fn tell(report: &compare::Report) -> Result<ExitCode, String> {
    write_out(&report.text)?;
    Ok(if report.clean {
        ExitCode::SUCCESS
    } else {
        ExitCode::FAILURE
    })
}

fn record(folder: &Path) -> Result<ExitCode, String> {
    for (name, make) in RECORDED {
        let file = folder.join(name).join("stdin");
        fs::write(&file, make()).map_err(|error| format!("{}: {error}", file.display()))?;
        println!("{}", file.display());
    }
    Ok(ExitCode::SUCCESS)
}

/// Writes frames as they are made.
fn write_tapes(options: &tapes::Options) -> Result<ExitCode, String> {
    let mut out = BufWriter::new(io::stdout().lock());
    let written = options.write(&mut out).and_then(|()| out.flush());
    written.map_err(|error| format!("standard output: {error}"))?;
    Ok(ExitCode::SUCCESS)
}

fn write_out(text: &str) -> Result<ExitCode, String> {
    io::stdout()
        .write_all(text.as_bytes())
        .map_err(|error| format!("standard output: {error}"))?;
    Ok(ExitCode::SUCCESS)
}
