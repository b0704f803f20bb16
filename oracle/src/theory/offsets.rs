//! What a carrier that is off does to each timing detector: both loops in a row, as the receiver has
//! them, and the symbols compared with what was sent.

use super::drive::{DAMPING, PACE, carrier, receive, timing};
use super::judge::{Tally, judge};
use super::points::{CIRCLES, Points};
use super::table::Table;
use super::wave::{Pair, Wave, noise};
use super::{DETECTORS, NOISE, SEED};
use crate::kernels::costas::CostasConstellation;
use crate::kernels::symbol_sync::Ted;
use crate::random::Random;
use crate::receiver_runs::receiver::Values;
use crate::types::C32;

/// The symbols of a recording.
const SYMBOLS: usize = 200_000;
/// Samples per symbol as they come; the loop is set up with 4.
const TRUE_PACE: f64 = 4.0005;
/// How late the first strobe is, in symbols.
const LATE: f64 = 0.1;
/// The bandwidths of the two loops.
const TIMING_BANDWIDTH: f64 = 0.01;
const CARRIER_BANDWIDTH: f64 = 0.02;
/// Other bandwidths of the timing loop, and the offset at which they are tried.
const BANDWIDTHS: [f64; 5] = [0.002, 0.005, 0.01, 0.02, 0.05];
const ONE_OFFSET: f64 = 0.002;
/// The carrier's offsets, in cycles per symbol.
const OFFSETS: [f64; 8] = [0.0, 0.0001, 0.0002, 0.0005, 0.001, 0.002, 0.005, 0.01];
/// The carrier's angles where its offset is 0, in degrees.
const ANGLES: [f64; 4] = [0.0, 15.0, 30.0, 45.0];

/// All tables of the command.
pub fn tables() -> String {
    tables_of(SYMBOLS)
}

/// The same with other counts of symbols.
fn tables_of(symbols: usize) -> String {
    let each =
        CIRCLES.map(|(constellation, points)| Recording::new(constellation, points, symbols));
    let mut offsets = Table::new(&columns("cycles per symbol"));
    let mut angles = Table::new(&columns("degrees"));
    let mut bandwidths = Table::new(&columns("timing bandwidth"));
    for recording in &each {
        for offset in OFFSETS {
            let input = recording.wave.carried(0.0, offset, &recording.noise);
            offsets.row(&recording.row(offset, TIMING_BANDWIDTH, &input));
        }
        for angle in ANGLES {
            let input = recording.wave.carried(angle / 360.0, 0.0, &recording.noise);
            angles.row(&recording.row(angle, TIMING_BANDWIDTH, &input));
        }
        for bandwidth in BANDWIDTHS {
            let input = recording.wave.carried(0.0, ONE_OFFSET, &recording.noise);
            bandwidths.row(&recording.row(bandwidth, bandwidth, &input));
        }
    }
    let (offsets, angles, bandwidths) = (offsets.text(), angles.text(), bandwidths.text());
    format!(
        "{symbols} symbols each: wrong symbols in per cent, and slipped symbols.\n\n\
         A carrier that is off:\n\n{offsets}\n\
         A carrier that stands still at an angle:\n\n{angles}\n\
         Other timing bandwidths, at {ONE_OFFSET} cycles per symbol:\n\n{bandwidths}"
    )
}

/// The columns of the tables.
fn columns(second: &str) -> [&str; 6] {
    [
        "constellation",
        second,
        "Gardner: wrong %",
        "Gardner: slips",
        "Mueller-Müller: wrong %",
        "Mueller-Müller: slips",
    ]
}

/// The signal of a constellation, and the noise that comes with it.
struct Recording {
    constellation: CostasConstellation,
    points: Points,
    wave: Wave,
    noise: Vec<Pair>,
}

impl Recording {
    /// So many symbols.
    fn new(constellation: CostasConstellation, points: Points, symbols: usize) -> Self {
        let mut random = Random::new(SEED);
        let wave = Wave::new(&mut random, points, symbols, TRUE_PACE, LATE);
        let noise = noise(&mut random, PACE, wave.len(), NOISE);
        Self {
            constellation,
            points,
            wave,
            noise,
        }
    }

    /// A row: what both detectors make of the samples.
    fn row(&self, second: f64, bandwidth: f64, input: &[C32]) -> Vec<String> {
        let mut cells = vec![self.points.name.to_string(), second.to_string()];
        for (detector, _) in DETECTORS {
            let Tally { wrong, slips } = self.heard(detector, bandwidth, input);
            cells.extend([format!("{wrong:.3}"), slips.to_string()]);
        }
        cells
    }

    /// What the receiver makes of them with a detector.
    fn heard(&self, detector: Ted, bandwidth: f64, input: &[C32]) -> Tally {
        let values = Values::named(
            timing(detector, self.points, bandwidth, DAMPING),
            carrier(self.constellation, CARRIER_BANDWIDTH, DAMPING),
        );
        let (strobes, outputs) = receive(values, input);
        judge(
            &self.wave,
            self.constellation,
            self.points.count,
            &strobes,
            &outputs,
        )
    }
}

#[cfg(test)]
mod tests {
    use super::*;

    /// What a detector makes of QPSK with the carrier off by so much.
    fn heard_off(recording: &Recording, detector: Ted, offset: f64) -> Tally {
        let input = recording.wave.carried(0.0, offset, &recording.noise);
        recording.heard(detector, TIMING_BANDWIDTH, &input)
    }

    #[test]
    fn a_carrier_that_is_off_leaves_gardner_alone_and_makes_mueller_muller_slip() {
        let (constellation, points) = CIRCLES[1];
        let recording = Recording::new(constellation, points, 20_000);
        for offset in [0.0, 0.0005, 0.002] {
            let none = Tally {
                wrong: 0.0,
                slips: 0,
            };
            assert_eq!(heard_off(&recording, Ted::Gardner, offset), none);
        }
        assert_eq!(heard_off(&recording, Ted::MuellerMuller, 0.0).slips, 0);
        let slow = heard_off(&recording, Ted::MuellerMuller, 0.0005);
        assert!(slow.wrong > 1.0 && slow.slips > 5, "{slow:?}");
    }
}
