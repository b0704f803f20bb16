//! Set-ups at the ends of their ranges, beside them and far outside. One that is accepted gets samples.

use super::commands::{Command, tape};
use super::recorded::Tapes;
use super::usual::{carrier, timing};
use crate::carrier_runs::{self, CONSTELLATIONS};
use crate::kernels::costas::CostasConstellation;
use crate::kernels::symbol_sync::Ted;
use crate::random::Random;
use crate::receiver_runs::{DETECTORS, signal_of};
use crate::runs;
use crate::types::C32;

/// The samples behind a set-up.
const BLOCK: usize = 6;

pub fn record(tapes: &mut Tapes, random: &mut Random) {
    for detector in DETECTORS {
        let other = carrier(CostasConstellation::Qpsk);
        for values in runs::listed(detector) {
            let accepted = values.set_up::<C32>().is_ok();
            add(tapes, random, Command::Timing(values), &other, accepted);
        }
    }
    for points in CONSTELLATIONS {
        let other = timing(Ted::Gardner);
        for values in carrier_runs::listed(points) {
            let accepted = values.set_up().is_ok();
            add(tapes, random, Command::Carrier(values), &other, accepted);
        }
    }
}

/// The set-up before or behind that of the other loop.
fn add(tapes: &mut Tapes, random: &mut Random, set_up: Command, other: &Command, accepted: bool) {
    let first = random.chance(0.5);
    let mut signal = signal_of(CostasConstellation::Qpsk, 2.0);
    let block = Command::Samples(signal.block(random, BLOCK));
    let list = match (first, accepted) {
        (true, true) => vec![set_up, other.clone(), block],
        (false, true) => vec![other.clone(), set_up, block],
        (true, false) => vec![set_up],
        (false, false) => vec![other.clone(), set_up],
    };
    tapes.add(tape(&list));
}
