//! The commands that tapes made by hand consist of.

use super::commands::Command;
use crate::kernels::costas::CostasConstellation;
use crate::kernels::symbol_sync::Ted;
use crate::types::C32;
use crate::{carrier_runs, runs};

/// A pace at which a few samples give some symbols.
pub const PACE: f64 = 2.3;

/// The set-ups that tapes begin with.
pub fn timing(detector: Ted) -> Command {
    Command::Timing(runs::Values {
        sps: PACE,
        gain: 1.0,
        ..runs::ordinary(detector)
    })
}

pub fn carrier(points: CostasConstellation) -> Command {
    Command::Carrier(carrier_runs::ordinary(points))
}

/// The set-ups that take their place: another selector and other values.
pub fn other_timing(detector: Ted) -> Command {
    let detector = match detector {
        Ted::Gardner => Ted::MuellerMuller,
        Ted::MuellerMuller => Ted::Gardner,
    };
    Command::Timing(runs::Values {
        sps: 2.0,
        detector,
        bandwidth: 0.05,
        damping: 0.8,
        deviation: 0.05,
        gain: 0.5,
    })
}

pub fn other_carrier(points: CostasConstellation) -> Command {
    let points = match points {
        CostasConstellation::Bpsk => CostasConstellation::Qpsk,
        CostasConstellation::Qpsk => CostasConstellation::Psk8,
        _ => CostasConstellation::Bpsk,
    };
    Command::Carrier(carrier_runs::Values {
        points,
        bandwidth: 0.2,
        damping: 1.0,
        offset: 0.25,
    })
}

/// Samples that are told apart in an output.
pub fn ramp(count: u8) -> Command {
    let sample = |n: u8| C32::new(f32::from(n), f32::from(n) / 8.0);
    Command::Samples((1..=count).map(sample).collect())
}
