//! Runs the receiver's loops over a recording, and keeps where each strobe was taken.

use std::f64::consts::FRAC_1_SQRT_2;

use super::ROLL_OFF;
use super::points::Points;
use super::pulses::Pulse;
use crate::Fallback;
use crate::kernels::costas::{Costas, CostasConstellation};
use crate::kernels::symbol_sync::{SymbolSync, SymbolSyncState, Ted};
use crate::receiver_runs::receiver::{Receiver, Values};
use crate::timing::Progress;
use crate::types::C32;
use crate::{carrier_runs, runs};

/// Samples per symbol, as the loop is set up.
pub const PACE: usize = 4;
/// The usual damping.
pub const DAMPING: f64 = FRAC_1_SQRT_2;
/// The timing loop's largest deviation.
const DEVIATION: f64 = 0.005;
/// The carrier loop's largest offset, in cycles per symbol.
const OFFSET: f64 = 0.05;

/// A strobe, and the place among the samples where it was taken.
#[derive(Clone, Copy, Debug, PartialEq)]
pub struct Strobe {
    pub place: f64,
    pub value: C32,
}

/// The detector gain for raised-cosine pulses: the formula for real symbols, times the power (Gardner) or
/// times the mean magnitude of both parts (Mueller-Müller).
pub fn gain(detector: Ted, points: Points) -> f64 {
    let pulse = Pulse::RaisedCosine(ROLL_OFF);
    match detector {
        Ted::Gardner => pulse.gardner().expect("no jump") * points.size * points.size,
        Ted::MuellerMuller => pulse.mueller_muller() * points.magnitudes(),
    }
}

/// The timing loop's values.
pub fn timing(detector: Ted, points: Points, bandwidth: f64, damping: f64) -> runs::Values {
    runs::Values {
        sps: PACE as f64,
        detector,
        bandwidth,
        damping,
        deviation: DEVIATION,
        gain: gain(detector, points),
    }
}

/// The carrier loop's values.
pub fn carrier(points: CostasConstellation, bandwidth: f64, damping: f64) -> carrier_runs::Values {
    carrier_runs::Values {
        points,
        bandwidth,
        damping,
        offset: OFFSET,
    }
}

/// The strobes of a recording: the loop is given one place a call, and says before each call where its
/// next strobe is.
pub fn strobes(state: &mut SymbolSyncState<C32>, input: &[C32]) -> Vec<Strobe> {
    let mut found = Vec::with_capacity(input.len() / PACE);
    let mut taken = 0;
    loop {
        let place = taken as f64 + state.next_strobe();
        let mut output = [C32::default()];
        let ran = Fallback.symbol_sync(state, &input[taken..], &mut output);
        let Progress { consumed, produced } = ran.expect("no run is refused");
        taken += consumed;
        if produced == 0 {
            return found;
        }
        let [value] = output;
        found.push(Strobe { place, value });
    }
}

/// The receiver: timing into strobes, then the carrier over them. The outputs belong to the strobes.
pub fn receive(values: Values, input: &[C32]) -> (Vec<Strobe>, Vec<C32>) {
    let mut receiver = Receiver::new(values).expect("values inside their ranges");
    let strobes = strobes(&mut receiver.timing, input);
    let values: Vec<C32> = strobes.iter().map(|strobe| strobe.value).collect();
    let mut outputs = vec![C32::default(); values.len()];
    let ran = Fallback.costas(&mut receiver.carrier, &values, &mut outputs);
    ran.expect("the counts are equal");
    (strobes, outputs)
}

#[cfg(test)]
mod tests {
    use super::super::points::unit;
    use super::super::wave::Wave;
    use super::*;
    use crate::random::Random;
    use crate::receiver_runs::receiver::samples;
    use crate::script::flat;

    /// One place a call and the carrier at the end, or one call of the receiver.
    #[test]
    fn the_outputs_are_the_receivers() {
        let points = unit("QPSK", 4);
        let wave = Wave::new(&mut Random::new(3), points, 400, 4.0, 0.2);
        let input = wave.carried(0.1, 0.002, &vec![(0.0, 0.0); wave.len()]);
        for detector in [Ted::Gardner, Ted::MuellerMuller] {
            let values = Values::named(
                timing(detector, points, 0.01, DAMPING),
                carrier(CostasConstellation::Qpsk, 0.02, DAMPING),
            );
            let (strobes, outputs) = receive(values, &input);
            let mut receiver = Receiver::new(values).expect("values inside their ranges");
            let (mut zs, mut ys) = (vec![0.0; 2 * input.len()], vec![0.0; 2 * input.len()]);
            let answer = receiver.run(&Fallback, &flat(&input), &mut zs, &mut ys);
            assert_eq!(answer.produced, strobes.len());
            assert_eq!(samples(&ys[..2 * answer.produced]), outputs);
            let values: Vec<C32> = strobes.iter().map(|strobe| strobe.value).collect();
            assert_eq!(samples(&zs[..2 * answer.produced]), values);
        }
    }
}
