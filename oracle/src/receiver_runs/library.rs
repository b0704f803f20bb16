//! Short calls for the replay of the functions that the static library exports: three samples and two
//! places at most, so that input, strobe buffer and output are a line each.

use super::receiver::{Receiver, Values};
use super::{DETECTORS, Recorder, Turns, chains, conversions, set_ups};
use crate::carrier_runs::{self, CONSTELLATIONS};
use crate::kernels::costas::CostasConstellation;
use crate::kernels::symbol_sync::Ted;
use crate::play::Kernel;
use crate::random::Random;
use crate::runs;
use crate::script::flat;
use crate::signal::Signal;
use crate::types::C32;

/// The letters of the lines that the replay plays.
pub const LETTERS: &str = "vcnuzpjxirtomabdqe";
/// The calls after a set-up.
const CALLS: usize = 20;
/// The calls after a phase was set, and after a reset.
const MORE: usize = 4;
/// The samples and the places of a call.
pub const SAMPLES: usize = 3;
pub const PLACES: usize = 2;
/// The f32 of input, strobe buffer and output of calls that are refused: odd, uneven, and both.
const REFUSED: [[usize; 3]; 3] = [[5, 4, 4], [6, 4, 2], [6, 3, 4]];
/// Samples that read none, and next to each one that does not.
const READ: [(f32, f32); 10] = [
    (0.0, 0.0),
    (0.0, -1.0),
    (-0.0, 0.0),
    (-0.0, 1.0),
    (0.0, -0.0),
    (-1.0, -0.0),
    (f32::NAN, 0.0),
    (f32::INFINITY, 0.0),
    (-1.0, f32::NAN),
    (-1.0, -f32::INFINITY),
];
/// The values do not turn: the second receiver is for another replay.
pub const STRAIGHT: Turns = Turns {
    samples: 0,
    phase: 0,
};

pub fn record<K: Kernel>(recorder: &mut Recorder<K>, random: &mut Random) {
    set_ups::both(recorder, random);
    for points in CONSTELLATIONS {
        for (re, im) in READ {
            recorder.symbol(points, C32::new(re, im));
        }
        for detector in DETECTORS {
            let timing = runs::Values {
                sps: 2.3,
                gain: 1.0,
                ..runs::ordinary(detector)
            };
            let values = Values::named(timing, carrier_runs::ordinary(points));
            chain(recorder, random, values);
            if points == CostasConstellation::Bpsk && detector == Ted::Gardner {
                chain(recorder, random, values.unnamed());
            }
        }
    }
    conversions::short(recorder, random);
}

/// Calls on one signal, with a phase that is set, calls that are refused, and a reset.
fn chain<K: Kernel>(recorder: &mut Recorder<K>, random: &mut Random, values: Values) {
    let mut receiver = recorder.opened(values, STRAIGHT);
    let mut signal = chains::signal_of(values.carrier.points, values.timing.sps);
    calls(recorder, random, &mut receiver, &mut signal, CALLS);
    let phase = random.bits32();
    recorder.set_phase(&mut receiver, phase);
    calls(recorder, random, &mut receiver, &mut signal, MORE);
    for [count, strobes, places] in REFUSED {
        recorder.call(&mut receiver, &vec![1.0; count], strobes, places);
    }
    recorder.reset(&mut receiver);
    calls(recorder, random, &mut receiver, &mut signal, MORE);
}

fn calls<K: Kernel>(
    recorder: &mut Recorder<K>,
    random: &mut Random,
    receiver: &mut Receiver,
    signal: &mut Signal,
    count: usize,
) {
    for _ in 0..count {
        let input = flat::<C32>(&signal.block(random, SAMPLES));
        recorder.call(receiver, &input, 2 * PLACES, 2 * PLACES);
    }
}
