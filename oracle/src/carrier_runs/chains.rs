//! Chains of calls: each goes on from the state that the last one left.

use std::f64::consts::FRAC_1_SQRT_2;

use super::{Recorder, Values, signal_of};
use crate::kernels::costas::{Costas, CostasConstellation, CostasState};
use crate::random::Random;
use crate::script::flat;
use crate::signal::{Signal, odd_value};
use crate::types::C32;

/// The longest block in samples.
const LONGEST: usize = 40;
/// The calls of a random chain.
const CALLS: usize = 8;
/// Block lengths.
const LENGTHS: [usize; 12] = [0, 1, 1, 2, 3, 4, 5, 7, 12, 17, 31, LONGEST];
/// Loop bandwidths.
pub const BANDWIDTHS: [f64; 3] = [0.0001, 0.02, 0.2];
/// Dampings.
pub const DAMPINGS: [f64; 3] = [0.1, FRAC_1_SQRT_2, 4.0];
/// Maximum offsets. The third is flushed.
pub const OFFSETS: [f64; 5] = [0.0, -0.0, 1e-35, 0.05, 0.25];

/// A chain with every block length, then random ones.
pub fn record<K: Costas>(
    recorder: &mut Recorder<K>,
    random: &mut Random,
    points: CostasConstellation,
) {
    let values = |bandwidth, damping, offset| Values {
        points,
        bandwidth,
        damping,
        offset,
    };
    let mut state = recorder.opened(values(0.02, FRAC_1_SQRT_2, 0.05));
    let mut signal = near_lock(random, points);
    for length in 0..=LONGEST {
        recorder.even_run(&mut state, &signal.block(random, length));
    }
    for bandwidth in BANDWIDTHS {
        for damping in DAMPINGS {
            for offset in OFFSETS {
                random_chain(recorder, random, values(bandwidth, damping, offset));
            }
        }
    }
}

/// A signal of the constellation, a little off in phase and frequency.
pub fn near_lock(random: &mut Random, points: CostasConstellation) -> Signal {
    let turn = random.between(-0.03, 0.03);
    let turn_step = random.pick(&[0.0, 0.001, -0.001, 0.01]);
    signal_of(points).carried(turn, turn_step)
}

/// A chain of calls, with a setter or a reset between them now and then.
fn random_chain<K: Costas>(recorder: &mut Recorder<K>, random: &mut Random, values: Values) {
    let mut state = recorder.opened(values);
    let mut signal = near_lock(random, values.points);
    for _ in 0..CALLS {
        set_something(recorder, random, &mut state);
        let length = random.pick(&LENGTHS);
        let input = block(random, &mut signal, length);
        let places = if random.chance(0.92) {
            length
        } else {
            random.up_to(length + 2)
        };
        recorder.run(&mut state, &input, places);
        if random.chance(0.06) {
            left_over(recorder, random, &state);
        }
    }
}

/// Now and then a reset, a phase or a frequency.
fn set_something<K: Costas>(
    recorder: &mut Recorder<K>,
    random: &mut Random,
    state: &mut CostasState,
) {
    match random.up_to(19) {
        0 => recorder.reset(state),
        1 | 2 => {
            let quarter = (random.up_to(3) as u32) << 30;
            let any = random.bits32();
            recorder.set_phase(state, random.pick(&[quarter, any]));
        }
        3 | 4 => {
            let edge = f64::from(state.max);
            let some = random.between(-edge, edge);
            let odd = f64::from(odd_value(random));
            recorder.set_frequency(state, random.pick(&[some, edge, -edge, odd]));
        }
        _ => {}
    }
}

/// The signal goes on, or is broken by another one, by odd values, or by points on the axes and the
/// diagonals.
fn block(random: &mut Random, signal: &mut Signal, length: usize) -> Vec<C32> {
    let parts: fn(&mut Random) -> f32 = match random.up_to(19) {
        0..12 => return signal.block(random, length),
        12..15 => return Signal::new(random, 1.0).block(random, length),
        15..18 => odd_value,
        _ => |random| random.pick(&[0.0, -0.0, 1.0, -1.0]),
    };
    (0..length)
        .map(|_| C32::new(parts(random), parts(random)))
        .collect()
}

/// A run with an f32 left over, in the input, in the output or in both; the counts differ, or not.
fn left_over<K: Costas>(recorder: &mut Recorder<K>, random: &mut Random, state: &CostasState) {
    let samples = near_lock(random, state.constellation).block(random, 3);
    let floats = flat::<C32>(&samples);
    let (count, places) = random.pick(&[(5, 6), (6, 5), (5, 5), (3, 5), (1, 0), (0, 1)]);
    recorder.odd_run(state, &floats[..count], places);
}
