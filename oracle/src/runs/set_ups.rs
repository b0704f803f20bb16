//! Set-ups: each value over its range and beyond, and two wrong values at a time.

use super::{Recorder, Values};
use crate::bits::Parts;
use crate::kernels::symbol_sync::Ted;

/// A value that is in no range, or at an end of one, whatever it stands for.
const ODD: [f64; 8] = [
    f64::NAN,
    f64::INFINITY,
    f64::NEG_INFINITY,
    -1.0,
    -0.0,
    0.0,
    5e-324,
    f64::MAX,
];

/// The ends of the ranges of sps, bandwidth, damping, deviation and gain.
const ENDS: [[f64; 2]; 5] = [
    [2.0, 1_000_000.0],
    [0.0001, 0.1],
    [0.1, 4.0],
    [0.0, 0.05],
    [f64::MIN_POSITIVE, f64::MAX],
];

/// What is wrong with each value when two are.
const WRONG: [f64; 5] = [1.5, 0.2, 5.0, 0.06, 0.0];

/// Values inside their ranges.
pub fn ordinary(detector: Ted) -> Values {
    Values {
        sps: 4.1,
        detector,
        bandwidth: 0.01,
        damping: 0.7,
        deviation: 0.005,
        gain: 1.3,
    }
}

/// The values with one of the five numbers changed.
fn with(mut values: Values, place: usize, x: f64) -> Values {
    let at = match place {
        0 => &mut values.sps,
        1 => &mut values.bandwidth,
        2 => &mut values.damping,
        3 => &mut values.deviation,
        _ => &mut values.gain,
    };
    *at = x;
    values
}

/// An end, and its neighbours on both sides.
fn around(end: f64) -> [f64; 3] {
    [end.next_down(), end, end.next_up()]
}

pub fn record<T: Parts, K>(recorder: &mut Recorder<K>, detector: Ted) {
    for values in listed(detector) {
        recorder.set_up::<T>(values);
    }
}

/// All set-ups with a detector, in order.
pub fn listed(detector: Ted) -> Vec<Values> {
    let plain = ordinary(detector);
    let mut list = Vec::new();
    for (place, ends) in ENDS.into_iter().enumerate() {
        let near = ends.into_iter().flat_map(around);
        list.extend(near.chain(ODD).map(|x| with(plain, place, x)));
        let wrong = with(plain, place, WRONG[place]);
        let others = WRONG.into_iter().enumerate().skip(place + 1);
        list.extend(others.map(|(other, x)| with(wrong, other, x)));
    }
    list.extend(gains(detector));
    list
}

/// Gains that are about to overflow, in kp alone and in both.
fn gains(detector: Ted) -> impl Iterator<Item = Values> {
    (295..324).flat_map(move |exponent| {
        [2.0, 1_000_000.0].map(|sps| {
            let values = with(ordinary(detector), 0, sps);
            with(values, 4, 10f64.powi(-exponent))
        })
    })
}
