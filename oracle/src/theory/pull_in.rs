//! How quick and how noisy the timing loop is.

use std::f64::consts::TAU;

use super::drive::{DAMPING, PACE, gain, strobes, timing};
use super::judge::slips;
use super::points::{Points, unit};
use super::pulses::Pulse;
use super::table::Table;
use super::wave::{Wave, noise};
use super::{DETECTORS, NOISE, ROLL_OFF, SEED};
use crate::kernels::symbol_sync::{SymbolSyncState, Ted};
use crate::random::Random;
use crate::runs::Values;
use crate::types::C32;

/// What is sent.
const POINTS: Points = unit("QPSK", 4);
/// The loop's bandwidths and dampings.
const BANDWIDTHS: [f64; 7] = [0.001, 0.002, 0.005, 0.01, 0.02, 0.05, 0.1];
pub const DAMPINGS: [f64; 2] = [DAMPING, 1.0];
/// How late or early the first strobe is, in symbols.
const LATE: f64 = 0.25;
/// The mean error that counts as settled, in symbols.
const SETTLED: f64 = 0.02;
/// A start is looked at for so many symbols, divided by the bandwidth.
const PATIENCE: f64 = 5.0;
/// So many starts, half of them late and half early.
const STARTS: usize = 200;
/// Recordings are so many symbols longer than the strobes that are looked at.
const MARGIN: usize = 20;
/// The symbols over which the jitter is taken, and those before them that do not count.
const JITTER_SYMBOLS: usize = 200_000;
const SKIPPED: usize = 5_000;

/// The table.
pub fn table() -> String {
    let longest = (PATIENCE / BANDWIDTHS[0]) as usize;
    let starts = starts(STARTS, longest + MARGIN);
    let long = one(0, JITTER_SYMBOLS, 0.0);
    let each = ["symbols", "model", "jitter", "slips"];
    let mut table = Table::new(&columns(DETECTORS.map(|(_, name)| name), &each));
    for bandwidth in BANDWIDTHS {
        let strobes = (PATIENCE / bandwidth) as usize;
        for damping in DAMPINGS {
            let mut cells = vec![bandwidth.to_string(), format!("{damping:.3}")];
            for (detector, _) in DETECTORS {
                let values = timing(detector, POINTS, bandwidth, damping);
                let measured = mean_lateness(values, &starts, strobes);
                let modelled = modelled(values, strobes);
                cells.push(counted(settled(&measured, SETTLED)));
                cells.push(counted(settled(&modelled, SETTLED)));
                let times = times(values, &long);
                let late = &times[SKIPPED..];
                cells.push(format!("{:.4}", jitter(late)));
                cells.push(slips(late).to_string());
            }
            table.row(&cells);
        }
    }
    table.text()
}

/// The columns: the loop's values, and for each name the same columns.
pub fn columns(names: impl IntoIterator<Item = &'static str>, each: &[&str]) -> Vec<String> {
    let mut columns = vec!["bandwidth".to_string(), "damping".to_string()];
    for name in names {
        columns.extend(each.iter().map(|what| format!("{name}: {what}")));
    }
    columns
}

/// A count, if there is one.
pub fn counted(count: Option<usize>) -> String {
    count.map_or("none".to_string(), |count| count.to_string())
}

/// A noisy recording.
struct Noisy {
    wave: Wave,
    samples: Vec<C32>,
}

/// Recordings whose first strobes are late and early in turns.
fn starts(count: usize, symbols: usize) -> Vec<Noisy> {
    let late = |start: usize| if start.is_multiple_of(2) { LATE } else { -LATE };
    let each = (0..count).map(|start| one(start, symbols, late(start)));
    each.collect()
}

/// A recording whose first strobe is so late.
fn one(start: usize, symbols: usize, late: f64) -> Noisy {
    let mut random = Random::new(SEED + start as u64);
    let wave = Wave::new(&mut random, POINTS, symbols, PACE as f64, late);
    let noise = noise(&mut random, PACE, wave.len(), NOISE);
    let samples = wave.carried(0.0, 0.0, &noise);
    Noisy { wave, samples }
}

/// When the strobes are taken, in symbols.
fn times(values: Values, noisy: &Noisy) -> Vec<f64> {
    let mut state = values.set_up().expect("values inside their ranges");
    let strobes = strobes(&mut state, &noisy.samples);
    let time = |place| noisy.wave.time(place);
    strobes.iter().map(|strobe| time(strobe.place)).collect()
}

/// How late a strobe is, seen from the nearest instant.
fn lateness(time: f64) -> f64 {
    time - time.round()
}

/// The mean lateness of each strobe over all starts, that of early starts with the other sign, for so
/// many strobes.
fn mean_lateness(values: Values, starts: &[Noisy], strobes: usize) -> Vec<f64> {
    let mut sums = vec![0.0; strobes];
    for noisy in starts {
        let times = times(values, noisy);
        let sign = lateness(times[0]).signum();
        for (sum, time) in sums.iter_mut().zip(&times) {
            *sum += sign * lateness(*time);
        }
    }
    sums.iter().map(|sum| sum / starts.len() as f64).collect()
}

/// The first symbol from which on the error stays within a limit.
pub fn settled(errors: &[f64], limit: f64) -> Option<usize> {
    let last = errors.iter().rposition(|error| error.abs() > limit);
    let first = last.map_or(0, |last| last + 1);
    (first < errors.len()).then_some(first)
}

/// The loop's own steps, with the detector's mean error in place of the detector.
fn modelled(values: Values, symbols: usize) -> Vec<f64> {
    let state: SymbolSyncState<C32> = values.set_up().expect("values inside their ranges");
    let (gains, sps) = (state.gains(), values.sps);
    let (mut late, mut integ) = (LATE, 0.0);
    let mut errors = Vec::with_capacity(symbols);
    for _ in 0..symbols {
        errors.push(late);
        let error = mean_error(values.detector, late);
        integ = f64::clamp(integ + gains.ki * error, -gains.max_integ, gains.max_integ);
        late += (integ + (gains.kp * error).clamp(-sps / 4.0, sps / 4.0)) / sps;
    }
    errors
}

/// The detector's mean error at a lateness: for raised-cosine pulses Gardner's is a sine, and
/// Mueller-Müller's is the difference of the pulse on both sides, where all decisions are right.
fn mean_error(detector: Ted, late: f64) -> f64 {
    match detector {
        Ted::Gardner => -gain(detector, POINTS) / TAU * (TAU * late).sin(),
        Ted::MuellerMuller => {
            let pulse = Pulse::RaisedCosine(ROLL_OFF);
            POINTS.magnitudes() * (pulse.at(late + 1.0) - pulse.at(late - 1.0))
        }
    }
}

/// The root of the mean square lateness.
fn jitter(times: &[f64]) -> f64 {
    let squares = times.iter().map(|time| lateness(*time).powi(2));
    (squares.sum::<f64>() / times.len() as f64).sqrt()
}

#[cfg(test)]
mod tests {
    use super::*;

    /// With the gain of its formula the loop comes in as it is designed to.
    #[test]
    fn the_loop_comes_in_as_its_model_does() {
        const STROBES: usize = 500;
        let starts = starts(60, STROBES + MARGIN);
        for (detector, _) in DETECTORS {
            let values = timing(detector, POINTS, 0.01, DAMPING);
            let measured = mean_lateness(values, &starts, STROBES);
            let modelled = modelled(values, STROBES);
            for (measured, modelled) in measured.iter().zip(modelled) {
                assert!((measured - modelled).abs() < 0.02, "{measured} {modelled}");
            }
        }
    }

    /// The error of Mueller-Müller has twice the noise's power, and the loop lets twice its bandwidth
    /// of it through.
    #[test]
    fn mueller_mullers_jitter_is_that_of_the_noise() {
        let (detector, bandwidth) = (Ted::MuellerMuller, 0.01);
        let times = times(
            timing(detector, POINTS, bandwidth, DAMPING),
            &one(0, 20_000, 0.0),
        );
        let noise = (2.0 * bandwidth * 2.0 * NOISE).sqrt() / gain(detector, POINTS);
        let ratio = jitter(&times[1_000..]) / noise;
        assert!((0.9..1.15).contains(&ratio), "{ratio}");
    }

    #[test]
    fn settled_is_the_last_way_in() {
        assert_eq!(settled(&[0.1, 0.01, -0.03, 0.02, 0.0], 0.02), Some(3));
        assert_eq!(settled(&[0.0, 0.1], 0.02), None);
        assert_eq!(settled(&[0.0], 0.02), Some(0));
    }
}
