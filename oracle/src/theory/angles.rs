//! What the carrier's angle does to the detectors' mean error. A carrier that is off passes by all angles.

use super::gains::{complex, rounded, sent};
use super::points::{CIRCLES, unit};
use super::pulses::Pulse;
use super::slope::{Reading, mean_error};
use super::table::Table;
use super::{DETECTORS, NOISE, ROLL_OFF};
use crate::kernels::symbol_sync::Ted;
use crate::types::C32;

/// The pulse of both tables.
const PULSE: Pulse = Pulse::RaisedCosine(ROLL_OFF);
/// The angles of the carrier, in degrees.
const ANGLES: [f64; 7] = [0.0, 7.5, 15.0, 22.5, 30.0, 37.5, 45.0];
/// How late the strobes are, in symbols.
const LATE: [f64; 8] = [0.01, 0.02, 0.05, 0.1, 0.2, 0.3, 0.4, 0.5];
/// The columns of the second table: a detector, and the carrier's angle in degrees.
const COLUMNS: [(Ted, &str, f64); 5] = [
    (Ted::Gardner, "Gardner, any angle", 0.0),
    (Ted::MuellerMuller, "Mueller-Müller, 0 degrees", 0.0),
    (Ted::MuellerMuller, "Mueller-Müller, 15 degrees", 15.0),
    (Ted::MuellerMuller, "Mueller-Müller, 30 degrees", 30.0),
    (Ted::MuellerMuller, "Mueller-Müller, 45 degrees", 45.0),
];

/// Both tables.
pub fn tables(symbols: usize) -> String {
    let db = -10.0 * NOISE.log10();
    let (slopes, errors) = (slopes(symbols), errors(symbols));
    format!(
        "\nThe gain by the carrier's angle, raised cosine with roll-off {ROLL_OFF}, magnitude 1, \
         {db:.0} dB:\n\n{slopes}\n\
         The mean error of late strobes, QPSK, otherwise the same:\n\n{errors}"
    )
}

/// The slopes of both detectors with the carrier at some angles.
fn slopes(symbols: usize) -> String {
    let mut columns = vec!["degrees".to_string()];
    for (_, name) in DETECTORS {
        columns.extend(CIRCLES.map(|(_, points)| format!("{name}, {}", points.name)));
    }
    let mut table = Table::new(&columns);
    for degrees in ANGLES {
        let mut cells = vec![degrees.to_string()];
        for (detector, _) in DETECTORS {
            for (_, points) in CIRCLES {
                let sent = sent(points, degrees / 360.0, symbols, NOISE);
                cells.push(rounded(complex(detector, PULSE, &sent)));
            }
        }
        table.row(&cells);
    }
    table.text()
}

/// The mean errors of late strobes under QPSK. Below 0 they drive the strobe back.
fn errors(symbols: usize) -> String {
    let mut columns = vec!["late by"];
    columns.extend(COLUMNS.map(|(_, name, _)| name));
    let mut table = Table::new(&columns);
    let all = COLUMNS.map(|(_, _, degrees)| sent(unit("QPSK", 4), degrees / 360.0, symbols, NOISE));
    for late in LATE {
        let mut cells = vec![late.to_string()];
        for ((detector, _, _), sent) in COLUMNS.iter().zip(&all) {
            let mean = mean_error::<C32>(*detector, PULSE, Reading::Exact, late, sent);
            cells.push(rounded(mean));
        }
        table.row(&cells);
    }
    table.text()
}

#[cfg(test)]
mod tests {
    use super::*;

    const FEW: usize = 100_000;

    /// Where a part of a point is near 0, its neighbours decide the sign, and the error drives the
    /// strobe away.
    #[test]
    fn with_points_on_the_axes_mueller_mullers_slope_is_the_wrong_way() {
        let turned = sent(unit("QPSK", 4), 0.125, FEW, NOISE);
        assert!(complex(Ted::MuellerMuller, PULSE, &turned) < -1.0);
        let formula = PULSE.gardner().expect("no jump");
        assert!((complex(Ted::Gardner, PULSE, &turned) - formula).abs() < 0.03);
    }

    /// All points of BPSK lie on one line, and so do their neighbours.
    #[test]
    fn no_angle_harms_bpsk() {
        for degrees in ANGLES {
            let turned = sent(unit("BPSK", 2), degrees / 360.0, FEW, NOISE);
            let gain = complex(Ted::MuellerMuller, PULSE, &turned);
            assert!(gain > PULSE.mueller_muller() - 0.05, "{degrees} {gain}");
        }
    }
}
