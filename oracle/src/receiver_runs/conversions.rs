//! Conversions of the record between calls on a signal, with each detector and each constellation: of a count that is
//! small, of those up to the top of 32 bits and past it, and at the top of 64.

use super::library::{PLACES, SAMPLES, STRAIGHT};
use super::receiver::{Receiver, Values};
use super::{DETECTORS, Recorder, Turns, chains};
use crate::carrier_runs::{self, CONSTELLATIONS};
use crate::play::Kernel;
use crate::random::Random;
use crate::runs;
use crate::script::flat;
use crate::signal::Signal;
use crate::types::C32;

/// The samples for each symbol.
const SPS: f64 = 2.3;
/// The turns of the second receiver, which are allowed under each constellation.
const TURNED: Turns = Turns {
    samples: 3,
    phase: 1,
};

/// A receiver on its signal, in calls of so many samples and places.
struct Underway<'a, K> {
    recorder: &'a mut Recorder<K>,
    random: &'a mut Random,
    receiver: Receiver,
    signal: Signal,
    samples: usize,
    places: usize,
}

impl<K: Kernel> Underway<'_, K> {
    fn calls(&mut self, count: usize) {
        for _ in 0..count {
            let input = flat::<C32>(&self.signal.block(self.random, self.samples));
            let places = 2 * self.places;
            self.recorder
                .call(&mut self.receiver, &input, places, places);
        }
    }

    fn convert(&mut self) {
        self.recorder.convert(&mut self.receiver);
    }

    /// Conversions of the counts up to a top, and of what the calls leave that pass it; then a phase is set.
    fn around(&mut self, top: u64) {
        for below in [0, 1, 2] {
            self.recorder.set_count(&mut self.receiver, top - below);
            self.convert();
        }
        for _ in 0..3 {
            self.calls(2);
            self.convert();
        }
        let phase = self.random.bits32();
        self.recorder.set_phase(&mut self.receiver, phase);
        self.calls(1);
    }
}

/// With blocks in which the loops come into their work.
pub fn record<K: Kernel>(recorder: &mut Recorder<K>, random: &mut Random) {
    all(recorder, random, TURNED, 21, 10);
}

/// With calls of a line each.
pub fn short<K: Kernel>(recorder: &mut Recorder<K>, random: &mut Random) {
    all(recorder, random, STRAIGHT, SAMPLES, PLACES);
}

fn all<K: Kernel>(
    recorder: &mut Recorder<K>,
    random: &mut Random,
    turns: Turns,
    samples: usize,
    places: usize,
) {
    for points in CONSTELLATIONS {
        for detector in DETECTORS {
            let timing = runs::Values {
                sps: SPS,
                gain: 1.0,
                ..runs::ordinary(detector)
            };
            let values = Values::named(timing, carrier_runs::ordinary(points));
            let receiver = recorder.opened(values, turns);
            let mut underway = Underway {
                recorder,
                random,
                receiver,
                signal: chains::signal_of(points, SPS),
                samples,
                places,
            };
            for _ in 0..4 {
                underway.calls(1);
                underway.convert();
            }
            underway.around(u32::MAX.into());
            underway.around(u64::MAX);
            let mut receiver = underway.receiver;
            recorder.reset(&mut receiver);
            recorder.convert(&mut receiver);
        }
    }
}
