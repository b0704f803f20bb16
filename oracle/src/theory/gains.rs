//! The detector gain for common pulses: the slope of the mean error, per symbol.

use std::f64::consts::SQRT_2;

use super::points::{Points, turned, unit};
use super::pulses::{PULSES, Pulse};
use super::slope::{ASIDE, Reading, Sent, slope};
use super::table::Table;
use super::{DETECTORS, SEED, angles};
use crate::kernels::symbol_sync::Ted;
use crate::random::Random;
use crate::types::C32;

/// The symbols of one mean.
const SYMBOLS: usize = 500_000;
/// The paces at which the original's interpolation is tried.
const PACES: [usize; 3] = [2, 4, 8];

/// Real symbols of 1 and -1.
const REAL: Points = unit("real", 2);
/// What else is sent in the first table.
const COMPLEX: [Points; 3] = [
    Points {
        name: "QPSK, parts 1 and -1",
        count: 4,
        size: SQRT_2,
    },
    unit("QPSK, magnitude 1", 4),
    unit("8-PSK, magnitude 1", 8),
];

/// All tables of the command.
pub fn tables() -> String {
    tables_of(SYMBOLS)
}

/// The same with other counts of symbols.
fn tables_of(symbols: usize) -> String {
    let mut text =
        format!("The detector gain, over {symbols} symbols, {ASIDE} symbol to either side.\n");
    for detector in DETECTORS {
        text += &format!("\n{}, read at the very instants:\n\n", detector.1);
        text += &by_symbols(detector.0, symbols);
    }
    for detector in DETECTORS {
        text += &format!(
            "\n{}, real symbols, read as the loop reads them:\n\n",
            detector.1
        );
        text += &by_pace(detector.0, symbols);
    }
    text + &angles::tables(symbols)
}

/// Random symbols as parts, turned by so many turns.
pub fn sent(points: Points, turns: f64, symbols: usize, noise: f64) -> Sent {
    let mut random = Random::new(SEED);
    let numbers = points.random(&mut random, symbols);
    let pairs = numbers.into_iter().map(|n| turned(points.point(n), turns));
    let (re, im) = pairs.unzip();
    Sent { re, im, noise }
}

/// The slope for real symbols of 1 and -1.
fn real(detector: Ted, pulse: Pulse, reading: Reading, symbols: usize) -> f64 {
    slope::<f32>(detector, pulse, reading, &sent(REAL, 0.0, symbols, 0.0))
}

/// The slope for points on a carrier at so many turns, with noise.
pub fn complex(detector: Ted, pulse: Pulse, sent: &Sent) -> f64 {
    slope::<C32>(detector, pulse, Reading::Exact, sent)
}

/// A gain, or that there is none because the mean error jumps.
fn cell(detector: Ted, pulse: Pulse, gain: impl Fn() -> f64) -> String {
    if detector == Ted::Gardner && pulse.gardner().is_none() {
        "jump".to_string()
    } else {
        rounded(gain())
    }
}

/// Two decimals, and no minus before zeros.
pub fn rounded(gain: f64) -> String {
    let text = format!("{gain:.2}");
    if text == "-0.00" {
        "0.00".to_string()
    } else {
        text
    }
}

/// Each pulse with each kind of symbols.
fn by_symbols(detector: Ted, symbols: usize) -> String {
    let mut columns = vec!["pulse", "real, 1 and -1"];
    columns.extend(COMPLEX.map(|points| points.name));
    let mut table = Table::new(&columns);
    let all = COMPLEX.map(|points| sent(points, 0.0, symbols, 0.0));
    for pulse in PULSES {
        let single = || real(detector, pulse, Reading::Exact, symbols);
        let mut cells = vec![pulse.name(), cell(detector, pulse, single)];
        for sent in &all {
            cells.push(cell(detector, pulse, || complex(detector, pulse, sent)));
        }
        table.row(&cells);
    }
    table.text()
}

/// Each pulse by its formula, and through the original's interpolation at some paces.
fn by_pace(detector: Ted, symbols: usize) -> String {
    let paces = PACES.map(|pace| format!("{pace} samples per symbol"));
    let mut columns = vec!["pulse", "formula", "very instants"];
    columns.extend(paces.iter().map(String::as_str));
    let mut table = Table::new(&columns);
    for pulse in PULSES {
        let formula = || formula(detector, pulse).unwrap_or_default();
        let exact = || real(detector, pulse, Reading::Exact, symbols);
        let mut cells = vec![pulse.name()];
        cells.push(cell(detector, pulse, formula));
        cells.push(cell(detector, pulse, exact));
        for pace in PACES {
            cells.push(rounded(real(
                detector,
                pulse,
                Reading::Sampled(pace),
                symbols,
            )));
        }
        table.row(&cells);
    }
    table.text()
}

/// The slope by its formula.
fn formula(detector: Ted, pulse: Pulse) -> Option<f64> {
    match detector {
        Ted::Gardner => pulse.gardner(),
        Ted::MuellerMuller => Some(pulse.mueller_muller()),
    }
}

#[cfg(test)]
mod tests {
    use std::f64::consts::{PI, TAU};

    use super::*;

    const FEW: usize = 100_000;

    fn near(x: f64, y: f64) -> bool {
        (x - y).abs() < 0.03
    }

    #[test]
    fn the_tables_are_the_same_every_time() {
        assert_eq!(tables_of(2_000), tables_of(2_000));
    }

    /// 6.28 is what the sample recording is received with.
    #[test]
    fn gardners_gain_of_the_sample_recording_is_a_whole_turn() {
        let parts = sent(COMPLEX[0], 0.0, FEW, 0.0);
        assert!(near(complex(Ted::Gardner, Pulse::Cosine, &parts), TAU));
        assert!(near(
            real(Ted::Gardner, Pulse::Cosine, Reading::Exact, FEW),
            PI
        ));
    }

    #[test]
    fn the_formulas_give_what_is_measured() {
        for (detector, _) in DETECTORS {
            for pulse in PULSES {
                if let Some(formula) = formula(detector, pulse) {
                    let measured = real(detector, pulse, Reading::Exact, FEW);
                    assert!(
                        near(measured, formula),
                        "{detector:?} {pulse:?} {measured} {formula}"
                    );
                }
            }
        }
    }

    /// Gardner's grows with the power, Mueller-Müller's with the parts' mean magnitude.
    #[test]
    fn the_gain_grows_with_the_signal() {
        let pulse = Pulse::RaisedCosine(0.35);
        let of = |detector, points| complex(detector, pulse, &sent(points, 0.0, FEW, 0.0));
        let [large, small, _] = COMPLEX;
        let ratio = |detector| of(detector, large) / of(detector, small);
        assert!(near(ratio(Ted::Gardner), 2.0));
        assert!(near(ratio(Ted::MuellerMuller), SQRT_2));
    }
}
