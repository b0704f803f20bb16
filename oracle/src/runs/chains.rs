//! Chains of calls: each goes on from the state that the last one left.

use super::{Recorder, Values, signal};
use crate::bits::Parts;
use crate::kernels::symbol_sync::{SymbolSync, SymbolSyncState, Ted};
use crate::random::Random;
use crate::script::flat;
use crate::signal::odd_value;
use crate::types::C32;

/// The longest block and the most places, in samples: two f32 a sample fit the replay's buffers.
pub const LONGEST: usize = 60;
/// Samples for each symbol.
pub const PACES: [f64; 10] = [
    2.0,
    2.0000000000000004,
    2.3,
    3.0,
    4.0,
    4.1,
    7.5,
    10.0,
    48.0,
    1_000_000.0,
];
/// Maximum deviations.
pub const DEVIATIONS: [f64; 4] = [0.0, 0.05, 0.005, -0.0];
/// Detector gains; the small ones drive the loop into its limits.
pub const GAINS: [f64; 5] = [1.0, 0.01, 1e-12, 2.7, 1e300];
/// Block lengths.
pub const LENGTHS: [usize; 14] = [0, 1, 2, 3, 4, 5, 0, 1, 3, 7, 9, 17, 31, 60];
/// Output places.
pub const PLACES: [usize; 9] = [0, 1, 2, 3, 5, 8, 1, 2, 40];

fn values(sps: f64, detector: Ted, deviation: f64, gain: f64) -> Values {
    Values {
        sps,
        detector,
        bandwidth: 0.05,
        damping: 0.8,
        deviation,
        gain,
    }
}

/// The cases X13 to X17 of docs/SPECIFICATION.md.
pub fn cases<K: SymbolSync<f32>>(recorder: &mut Recorder<K>) {
    let ramp: Vec<f32> = (1u8..7).map(f32::from).collect();
    for (samples, places) in [(3, 1), (4, 1), (4, 0)] {
        let two = values(2.0, Ted::Gardner, 0.005, 1.0);
        let mut state = recorder.set_up::<f32>(two).expect("it is accepted");
        recorder.run(&mut state, &ramp[..samples], places);
    }
    for detector in [Ted::Gardner, Ted::MuellerMuller] {
        let four = values(4.0, detector, 0.005, 1.0);
        let mut state = recorder.set_up::<f32>(four).expect("it is accepted");
        recorder.run(&mut state, &ramp, 1);
    }
}

/// Short chains of every pair of lengths, then random ones.
pub fn record<T: Parts, K>(recorder: &mut Recorder<K>, random: &mut Random, detector: Ted)
where
    K: SymbolSync<T>,
{
    for first in 0..6 {
        for second in 0..6 {
            let sps = random.pick(&[2.0, 2.3, 3.0]);
            let set_up = values(sps, detector, 0.05, 0.5);
            let mut state = recorder.set_up::<T>(set_up).expect("it is accepted");
            for length in [first, second, 5] {
                let places = random.up_to(3);
                let input = signal(random, sps, length);
                recorder.run(&mut state, &input, places);
            }
        }
    }
    for sps in PACES {
        for deviation in DEVIATIONS {
            let gain = random.pick(&GAINS);
            random_chain::<T, K>(recorder, random, values(sps, detector, deviation, gain));
        }
        random_chain::<T, K>(recorder, random, values(sps, detector, 0.05, 1e-9));
    }
}

/// A chain of calls on one signal. What is not consumed mostly comes again.
fn random_chain<T: Parts, K>(recorder: &mut Recorder<K>, random: &mut Random, set_up: Values)
where
    K: SymbolSync<T>,
{
    let mut state = recorder.set_up::<T>(set_up).expect("it is accepted");
    let mut rest: Vec<T> = Vec::new();
    for _ in 0..12 {
        let length = random.pick(&LENGTHS);
        let mut input: Vec<T> = rest.into_iter().take(LONGEST).collect();
        let more = length.min(LONGEST - input.len());
        input.extend(block::<T>(random, set_up.sps, more));
        let places = random.pick(&PLACES);
        let consumed = recorder.run(&mut state, &input, places);
        rest = input.split_off(consumed);
        if random.chance(0.1) {
            rest.clear();
        }
        if random.chance(0.03) {
            recorder.reset(&mut state);
        }
        odd(recorder, random, &state);
    }
}

/// A piece of a signal, or odd values alone.
fn block<T: Parts>(random: &mut Random, sps: f64, length: usize) -> Vec<T> {
    if random.chance(0.15) {
        return (0..length)
            .map(|_| T::of_pair(odd_value(random), odd_value(random)))
            .collect();
    }
    signal(random, sps, length)
}

/// Now and then a complex run with an f32 left over.
fn odd<T: Parts, K>(recorder: &mut Recorder<K>, random: &mut Random, state: &SymbolSyncState<T>) {
    if T::COUNT == 1 || random.chance(0.9) {
        return;
    }
    let samples = 1 + random.up_to(4);
    let floats = flat(&signal::<C32>(random, 4.0, samples));
    let (left, places) = random.pick(&[(1, 4), (0, 3), (1, 1)]);
    recorder.odd_run(state, &floats[left..], places);
}
