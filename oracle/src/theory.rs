//! Numbers that an engineer chooses a set-up by, measured over the original's `Fallback`: the detector
//! gain of common pulses, what a carrier that is off does to each timing detector, how quick and how noisy
//! a loop is, and in which range one set-up works. README.md says how.

mod angles;
mod drive;
mod gains;
mod judge;
mod lock_in;
mod offsets;
mod points;
mod pull_in;
mod pulses;
mod settling;
mod slope;
mod table;
mod wave;
mod working_range;

use crate::kernels::symbol_sync::Ted;

/// The random numbers are the same every time.
const SEED: u64 = 20_261_120;
/// The roll-off of the raised-cosine pulse, where one stands for all.
const ROLL_OFF: f64 = 0.35;
/// The noise's power beside a symbol's power of 1: 20 dB below it.
const NOISE: f64 = 0.01;
/// The two detectors, and their names.
const DETECTORS: [(Ted, &str); 2] = [
    (Ted::Gardner, "Gardner"),
    (Ted::MuellerMuller, "Mueller-Müller"),
];

/// The tables of a command, if there is one of this name.
pub fn tables(command: &str) -> Option<String> {
    match command {
        "detector-gain" => Some(gains::tables()),
        "carrier-offset" => Some(offsets::tables()),
        "pull-in" => Some(pulled_in()),
        "working-range" => Some(working_range::tables()),
        _ => None,
    }
}

/// The tables of both loops.
fn pulled_in() -> String {
    let (timing, carrier) = (pull_in::table(), lock_in::table());
    format!("The timing loop:\n\n{timing}\nThe carrier loop:\n\n{carrier}")
}

#[cfg(test)]
mod tests {
    #[test]
    fn another_name_is_no_command() {
        assert_eq!(super::tables("gain"), None);
    }
}
