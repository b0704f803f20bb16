//! How quick and how noisy the carrier loop is.

use super::drive::carrier;
use super::points::{CIRCLES, Points, turned};
use super::pull_in::{DAMPINGS, columns, counted, settled};
use super::table::Table;
use super::{NOISE, SEED};
use crate::Fallback;
use crate::carrier_runs::Values;
use crate::kernels::costas::Costas;
use crate::random::Random;
use crate::types::C32;

/// The loop's bandwidths.
const BANDWIDTHS: [f64; 6] = [0.005, 0.01, 0.02, 0.05, 0.1, 0.2];
/// The carrier's offset, in cycles per symbol.
const OFFSET: f64 = 0.002;
/// An error that counts as settled, in degrees.
const SETTLED: f64 = 5.0;
/// So many starts at random phases, each with so many symbols.
const STARTS: usize = 51;
const SYMBOLS: usize = 10_000;
/// The symbols before the jitter is taken.
const SKIPPED: usize = 5_000;
/// A turn of the oscillator's phase.
const TURN: f64 = 4_294_967_296.0;

/// What one start gives.
struct Start {
    /// How far the carrier is from the nearest stable phase at each symbol, in degrees.
    errors: Vec<f64>,
    /// The symbols until lock is said.
    locked: Option<usize>,
}

/// The table.
pub fn table() -> String {
    let names = CIRCLES.map(|(_, points)| points.name);
    let mut table = Table::new(&columns(names, &["locked", "settled", "jitter"]));
    for bandwidth in BANDWIDTHS {
        for damping in DAMPINGS {
            let mut cells = vec![bandwidth.to_string(), format!("{damping:.3}")];
            for (constellation, points) in CIRCLES {
                let values = carrier(constellation, bandwidth, damping);
                cells.extend(measured(values, points));
            }
            table.row(&cells);
        }
    }
    table.text()
}

/// Three cells: the symbols until lock is said, in noise; until the error stays small, without noise;
/// and the error's size after that, in noise.
fn measured(values: Values, points: Points) -> [String; 3] {
    let run = |noise| (0..STARTS).map(move |start| start_of(values, points, noise, start));
    let clean: Vec<Start> = run(0.0).collect();
    let noisy: Vec<Start> = run(NOISE).collect();
    let locked = noisy.iter().map(|start| start.locked).collect();
    let settled = clean.iter().map(|start| settled(&start.errors, SETTLED));
    let settled = settled.collect();
    let late = noisy.iter().flat_map(|start| &start.errors[SKIPPED..]);
    let square = late.map(|error| error * error).sum::<f64>();
    let jitter = (square / (STARTS * (SYMBOLS - SKIPPED)) as f64).sqrt();
    [
        counted(middle(locked)),
        counted(middle(settled)),
        format!("{jitter:.2}"),
    ]
}

/// The middle one of the counts. Starts that never get there come last.
pub fn middle(mut counts: Vec<Option<usize>>) -> Option<usize> {
    counts.sort_by_key(|count| count.unwrap_or(usize::MAX));
    counts[counts.len() / 2]
}

/// Random symbols on a carrier that begins at a random phase, one a call.
fn start_of(values: Values, points: Points, noise: f64, start: usize) -> Start {
    let mut random = Random::new(SEED + start as u64);
    let mut state = values.set_up().expect("values inside their ranges");
    let begin = random.unit();
    let (mut errors, mut locked) = (Vec::with_capacity(SYMBOLS), None);
    for symbol in 0..SYMBOLS {
        let turns = begin + OFFSET * symbol as f64;
        errors.push(away(turns - f64::from(state.phase()) / TURN, points.count));
        let number = random.up_to(points.count - 1);
        let (re, im) = turned(points.point(number), turns.fract());
        let size = (noise / 2.0).sqrt();
        let (re, im) = (re + size * random.bell(), im + size * random.bell());
        let (input, mut output) = ([C32::new(re as f32, im as f32)], [C32::default()]);
        let ran = Fallback.costas(&mut state, &input, &mut output);
        ran.expect("the counts are equal");
        if state.locked() && locked.is_none() {
            locked = Some(symbol + 1);
        }
    }
    Start { errors, locked }
}

/// How far so many turns are from the nearest stable phase, in degrees. There are as many stable phases
/// as points.
fn away(turns: f64, points: usize) -> f64 {
    let steps = turns * points as f64;
    (steps - steps.round()) * 360.0 / points as f64
}

#[cfg(test)]
mod tests {
    use super::*;

    /// The detector's slope is 1 for BPSK: the loop lets twice its bandwidth of the noise's half beside
    /// the symbol through.
    #[test]
    fn the_carriers_jitter_is_that_of_the_noise() {
        let (constellation, points) = CIRCLES[0];
        let bandwidth = 0.02;
        let start = start_of(carrier(constellation, bandwidth, 1.0), points, NOISE, 0);
        let late = &start.errors[SKIPPED..];
        let square = late.iter().map(|error| error * error).sum::<f64>() / late.len() as f64;
        let ratio = square.sqrt().to_radians() / (bandwidth * NOISE).sqrt();
        assert!((0.9..1.1).contains(&ratio), "{ratio}");
    }

    #[test]
    fn lock_is_said_and_the_phase_settles_under_each_constellation() {
        for (constellation, points) in CIRCLES {
            let start = start_of(carrier(constellation, 0.05, 1.0), points, 0.0, 1);
            assert!(start.locked.is_some_and(|symbols| symbols < 200));
            assert!(settled(&start.errors, SETTLED).is_some_and(|symbols| symbols < 100));
        }
    }

    #[test]
    fn starts_that_never_get_there_come_last() {
        assert_eq!(middle(vec![None, Some(3), Some(1)]), Some(3));
        assert_eq!(middle(vec![None, None, Some(1)]), None);
    }
}
