//! Set-ups: those of the timing loop with a carrier that is accepted, those of the carrier with a timing
//! loop that is, and both wrong at once: timing's number wins. The constellation is named, or not.

use super::receiver::Values;
use super::{DETECTORS, Recorder, Turns};
use crate::carrier_runs::{self, CONSTELLATIONS};
use crate::kernels::costas::CostasConstellation;
use crate::kernels::symbol_sync::Ted;
use crate::play::Kernel;
use crate::random::Random;
use crate::runs;
use crate::script::number;

pub fn record<K: Kernel>(recorder: &mut Recorder<K>, random: &mut Random) {
    let carrier = carrier_runs::ordinary;
    for (detector, points) in DETECTORS.into_iter().zip(CONSTELLATIONS) {
        for timing in runs::listed(detector) {
            set_up(recorder, random, Values::named(timing, carrier(points)));
        }
    }
    for points in CONSTELLATIONS {
        for carrier in carrier_runs::listed(points) {
            let values = Values::named(runs::ordinary(Ted::Gardner), carrier);
            set_up(recorder, random, values);
            if points == CostasConstellation::Bpsk {
                set_up(recorder, random, values.unnamed());
            }
        }
    }
    both(recorder, random);
}

/// A set-up of each refusal of one loop with each of the other's.
pub fn both<K: Kernel>(recorder: &mut Recorder<K>, random: &mut Random) {
    for timing in one_of_each(runs::listed(Ted::MuellerMuller), |t| {
        number(&t.set_up::<f32>())
    }) {
        let points = random.pick(&CONSTELLATIONS);
        for carrier in one_of_each(carrier_runs::listed(points), |c| number(&c.set_up())) {
            let values = Values::named(timing, carrier);
            set_up(recorder, random, values);
            set_up(recorder, random, values.unnamed());
        }
    }
}

/// The first of the list that has each number, 0 too.
pub fn one_of_each<V: Copy>(list: Vec<V>, number: impl Fn(&V) -> u64) -> Vec<V> {
    let first = |wanted: u64| list.iter().copied().find(|values| number(values) == wanted);
    (0..=6).filter_map(first).collect()
}

fn set_up<K: Kernel>(recorder: &mut Recorder<K>, random: &mut Random, values: Values) {
    let turns = random.pick(&Turns::allowed(values.carrier.points));
    recorder.set_up(values, turns);
}
