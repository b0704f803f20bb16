//! In which range the values of `receive_recording` work (P1): by the carrier's offset, by the level and
//! by the samples per symbol as they come.

use std::f64::consts::SQRT_2;

use super::drive::{PACE, receive};
use super::lock_in::middle;
use super::points::Points;
use super::pull_in::counted;
use super::pulses::Pulse;
use super::settling::{heard, settled};
use super::table::Table;
use super::wave::{Pair, RAISED_COSINE, Wave, noise};
use super::{NOISE, SEED};
use crate::kernels::costas::CostasConstellation;
use crate::kernels::symbol_sync::Ted;
use crate::random::Random;
use crate::receiver_runs::receiver::Values;
use crate::types::C32;
use crate::{carrier_runs, runs};

/// The timing loop's values. The gain is two decimals of a whole turn, and no more.
#[expect(clippy::approx_constant, reason = "P1 says 6.28")]
const TIMING: runs::Values = runs::Values {
    sps: PACE as f64,
    detector: Ted::Gardner,
    bandwidth: 0.01,
    damping: 1.0,
    deviation: 0.01,
    gain: 6.28,
};
/// The carrier loop's values.
const CARRIER: carrier_runs::Values = carrier_runs::Values {
    points: CostasConstellation::Qpsk,
    bandwidth: 0.02,
    damping: 1.0,
    offset: 0.05,
};
/// What is sent at level 1: parts of 1 and -1.
const POINTS: Points = Points {
    name: "QPSK",
    count: 4,
    size: SQRT_2,
};
/// The signals, and their names.
const SIGNALS: [(Pulse, &str); 2] = [
    (Pulse::Cosine, "cosine transitions"),
    (RAISED_COSINE, "raised cosine 0.35"),
];
/// The carrier's offsets, in cycles per symbol.
const OFFSETS: [f64; 12] = [
    0.0, 0.002, 0.005, 0.01, 0.02, 0.03, 0.04, 0.042, 0.045, 0.05, 0.055, 0.06,
];
/// The noise of a clean recording, 40 dB below a symbol's power.
const CLEAN: f64 = 0.0001;
/// The levels.
const LEVELS: [f64; 8] = [0.1, 0.2, 0.5, 1.0, 2.0, 3.0, 5.0, 10.0];
/// Samples per symbol as they come.
const PACES: [f64; 7] = [3.9, 3.96, 3.98, 4.0, 4.02, 4.04, 4.1];
/// The offset and the level where another value changes.
const ONE_OFFSET: f64 = 0.002;
const ONE_LEVEL: f64 = 1.0;

/// How much is measured.
#[derive(Clone, Copy)]
struct Extent {
    /// The starts of a cell.
    starts: usize,
    /// The symbols of a start.
    symbols: usize,
    /// The last symbols of a start, among which there must be no mistake.
    last: usize,
}

/// The extent of the command.
const EXTENT: Extent = Extent {
    starts: 41,
    symbols: 12_000,
    last: 4_000,
};

/// All tables of the command.
pub fn tables() -> String {
    tables_of(EXTENT)
}

/// The same to another extent.
fn tables_of(extent: Extent) -> String {
    let Extent {
        starts,
        symbols,
        last,
    } = extent;
    let even = |power| SIGNALS.map(|(pulse, _)| Starts::new(pulse, PACE as f64, power, extent));
    let (noisy, clean) = (even(NOISE), even(CLEAN));
    let (offsets, unnoised) = (by_offset(&noisy), by_offset(&clean));
    let (levels, paces) = (by_level(&noisy), by_pace(extent));
    format!(
        "How many symbols come before those that are all right: the median and the largest of {starts} starts \
         of\n{symbols} symbols each, and how many starts never get there (a mistake among the last {last}).\n\n\
         By carrier offset, level {ONE_LEVEL}, 20 dB:\n\n{offsets}\n\
         By carrier offset, level {ONE_LEVEL}, 40 dB:\n\n{unnoised}\n\
         By level, {ONE_OFFSET} cycles per symbol, 20 dB:\n\n{levels}\n\
         By samples per symbol, {ONE_OFFSET} cycles per symbol, level {ONE_LEVEL}, 20 dB:\n\n{paces}"
    )
}

/// A table without a row.
fn table(first: &str) -> Table {
    let mut columns = vec![first.to_string()];
    for (_, name) in SIGNALS {
        columns.push(format!("{name}: median"));
        columns.extend(["largest", "never"].map(str::to_string));
    }
    Table::new(&columns)
}

/// The table of the carrier's offsets.
fn by_offset(signals: &[Starts]) -> String {
    let mut table = table("cycles per symbol");
    for offset in OFFSETS {
        table.row(&row(offset, signals, offset, ONE_LEVEL));
    }
    table.text()
}

/// The table of the levels.
fn by_level(signals: &[Starts]) -> String {
    let mut table = table("level");
    for level in LEVELS {
        table.row(&row(level, signals, ONE_OFFSET, level));
    }
    table.text()
}

/// The table of the samples per symbol.
fn by_pace(extent: Extent) -> String {
    let mut table = table("samples per symbol");
    for pace in PACES {
        let signals = SIGNALS.map(|(pulse, _)| Starts::new(pulse, pace, NOISE, extent));
        table.row(&row(pace, &signals, ONE_OFFSET, ONE_LEVEL));
    }
    table.text()
}

/// A row: the value that changes, and what comes of each signal.
fn row(value: f64, signals: &[Starts], offset: f64, level: f64) -> Vec<String> {
    let mut cells = vec![value.to_string()];
    for starts in signals {
        let counts = starts.settled(offset, level);
        let never = counts.iter().filter(|count| count.is_none()).count();
        let largest = counts.iter().copied().flatten().max();
        cells.extend([counted(middle(counts)), counted(largest), never.to_string()]);
    }
    cells
}

/// A recording whose first strobe is late by any part of a symbol and whose carrier begins at any phase.
struct Start {
    wave: Wave,
    turn: f64,
    noise: Vec<Pair>,
}

/// The starts of a cell.
struct Starts {
    each: Vec<Start>,
    last: usize,
}

impl Starts {
    /// With a pulse, at so many samples per symbol, in noise of a power beside a symbol's.
    fn new(pulse: Pulse, pace: f64, power: f64, extent: Extent) -> Self {
        let each = (0..extent.starts).map(|start| {
            let mut random = Random::new(SEED + start as u64);
            let (turn, late) = (random.unit(), random.unit());
            let wave = Wave::shaped(&mut random, pulse, POINTS, extent.symbols, pace, late);
            let power = power * POINTS.size * POINTS.size;
            let noise = noise(&mut random, PACE, wave.len(), power);
            Start { wave, turn, noise }
        });
        let (each, last) = (each.collect(), extent.last);
        Self { each, last }
    }

    /// How many symbols each start takes until it is settled.
    fn settled(&self, offset: f64, level: f64) -> Vec<Option<usize>> {
        let one = |start: &Start| {
            let input = start.input(offset, level);
            let (strobes, outputs) = receive(Values::named(TIMING, CARRIER), &input);
            settled(&heard(&start.wave, &strobes, &outputs), self.last)
        };
        self.each.iter().map(one).collect()
    }
}

impl Start {
    /// The samples, noise and all at a level.
    fn input(&self, offset: f64, level: f64) -> Vec<C32> {
        let level = level as f32;
        let input = self.wave.carried(self.turn, offset, &self.noise);
        let scaled = |sample: C32| C32::new(level * sample.re, level * sample.im);
        input.into_iter().map(scaled).collect()
    }
}

#[cfg(test)]
mod tests {
    use super::*;

    /// Some starts.
    const FEW: Extent = Extent {
        starts: 5,
        symbols: 1_500,
        last: 500,
    };

    /// The starts of the sample recording's pulse.
    fn few(pace: f64) -> Starts {
        Starts::new(Pulse::Cosine, pace, NOISE, FEW)
    }

    #[test]
    fn the_tables_are_the_same_every_time() {
        let tiny = Extent {
            starts: 1,
            symbols: 60,
            last: 20,
        };
        assert_eq!(tables_of(tiny), tables_of(tiny));
    }

    #[test]
    fn a_recording_like_the_sample_recording_settles() {
        for count in few(4.0).settled(ONE_OFFSET, ONE_LEVEL) {
            assert!(count.is_some_and(|symbols| symbols < 400), "{count:?}");
        }
    }

    #[test]
    fn a_clock_beyond_the_largest_deviation_never_settles() {
        let counts = few(4.1).settled(ONE_OFFSET, ONE_LEVEL);
        assert_eq!(counts, vec![None; FEW.starts]);
    }
}
