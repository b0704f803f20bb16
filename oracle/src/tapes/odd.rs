//! Odd samples that come out as symbols: at 2 samples per symbol each second one does, since the detector gain is
//! so large that no error moves the strobes. The carrier turns them.

use super::commands::{Command, tape};
use super::recorded::Tapes;
use crate::carrier_runs::{self, CONSTELLATIONS, PARTS};
use crate::receiver_runs::DETECTORS;
use crate::runs;
use crate::types::C32;

pub fn record(tapes: &mut Tapes) {
    for (points, detector) in CONSTELLATIONS
        .into_iter()
        .zip(DETECTORS.into_iter().cycle())
    {
        let timing = runs::Values {
            sps: 2.0,
            gain: 1e300,
            ..runs::ordinary(detector)
        };
        let carrier = carrier_runs::Values {
            bandwidth: 0.2,
            offset: 0.25,
            ..carrier_runs::ordinary(points)
        };
        tapes.add(tape(&[
            Command::Timing(timing),
            Command::Carrier(carrier),
            Command::Samples(samples()),
        ]));
    }
}

/// Every pair of odd parts, the largest numbers too, and a zero before each.
fn samples() -> Vec<C32> {
    let parts = || PARTS.into_iter().chain([f32::MAX, f32::MIN]);
    let pairs = parts().flat_map(|re| parts().map(move |im| C32::new(re, im)));
    pairs.flat_map(|odd| [C32::new(0.0, 0.0), odd]).collect()
}
