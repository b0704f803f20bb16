//! Chains of calls: each goes on from the record that the last one left.

use super::receiver::{Receiver, Values};
use super::{Recorder, Turns};
use crate::carrier_runs::{self, BANDWIDTHS, DAMPINGS, OFFSETS};
use crate::kernels::costas::CostasConstellation;
use crate::kernels::symbol_sync::Ted;
use crate::play::Kernel;
use crate::random::Random;
use crate::runs::{self, DEVIATIONS, GAINS, LENGTHS, LONGEST, PACES, PLACES};
use crate::script::flat;
use crate::signal::{Signal, odd_value};
use crate::types::C32;

/// The calls of a random chain.
const CALLS: usize = 12;
/// The calls in which lock must be found, or lost.
const WITHIN: usize = 80;
/// The calls that go on with lock.
const LOCKED: usize = 4;
/// The f32 of input, strobe buffer and output of the calls that are refused: an odd count in each, in two
/// and in all three; strobe buffer and output uneven; and both at once.
const REFUSED: [[usize; 3]; 14] = [
    [5, 4, 4],
    [6, 3, 4],
    [6, 4, 3],
    [5, 3, 4],
    [5, 4, 3],
    [6, 3, 3],
    [5, 5, 5],
    [1, 0, 0],
    [0, 1, 1],
    [6, 4, 6],
    [6, 2, 0],
    [0, 0, 2],
    [5, 4, 6],
    [6, 3, 8],
];

pub fn record<K: Kernel>(
    recorder: &mut Recorder<K>,
    random: &mut Random,
    points: CostasConstellation,
    detector: Ted,
) {
    short_chains(recorder, random, points, detector);
    for sps in PACES {
        let steady = values(random, sps, detector, points);
        random_chain(recorder, random, steady, signal_of(points, sps));
        let driven = values(random, sps, detector, points);
        let signal = Signal::new(random, sps);
        random_chain(recorder, random, driven, signal);
    }
    lock(recorder, random, points, detector);
}

/// Values all over their ranges.
fn values(random: &mut Random, sps: f64, detector: Ted, points: CostasConstellation) -> Values {
    let timing = runs::Values {
        sps,
        bandwidth: 0.05,
        damping: 0.8,
        deviation: random.pick(&DEVIATIONS),
        gain: random.pick(&GAINS),
        detector,
    };
    let carrier = carrier_runs::Values {
        points,
        bandwidth: random.pick(&BANDWIDTHS),
        damping: random.pick(&DAMPINGS),
        offset: random.pick(&OFFSETS),
    };
    Values::named(timing, carrier)
}

/// A signal of the constellation that the loops can lock to.
pub fn signal_of(points: CostasConstellation, sps: f64) -> Signal {
    let order = points.psk_order().expect("a constellation on the circle");
    Signal::ordinary(order as usize, sps).carried(0.02, 0.0005)
}

fn some_turns(random: &mut Random, points: CostasConstellation) -> Turns {
    random.pick(&Turns::allowed(points))
}

/// Chains of three calls for every pair of block lengths from 0 to 5. Under BPSK the constellation is
/// not named in every second of them.
fn short_chains<K: Kernel>(
    recorder: &mut Recorder<K>,
    random: &mut Random,
    points: CostasConstellation,
    detector: Ted,
) {
    for first in 0..6 {
        for second in 0..6 {
            let sps = random.pick(&[2.0, 2.3, 3.0]);
            let mut set_up = values(random, sps, detector, points);
            if points == CostasConstellation::Bpsk && (first + second) % 2 == 0 {
                set_up = set_up.unnamed();
            }
            let turns = some_turns(random, points);
            let mut receiver = recorder.opened(set_up, turns);
            let mut signal = signal_of(points, sps);
            for length in [first, second, 5] {
                let places = 2 * random.up_to(3);
                let input = flat::<C32>(&signal.block(random, length));
                recorder.call(&mut receiver, &input, places, places);
            }
        }
    }
}

/// A chain of calls on one signal. What is not consumed mostly comes again.
fn random_chain<K: Kernel>(
    recorder: &mut Recorder<K>,
    random: &mut Random,
    set_up: Values,
    mut signal: Signal,
) {
    let turns = some_turns(random, set_up.carrier.points);
    let mut receiver = recorder.opened(set_up, turns);
    let mut rest: Vec<C32> = Vec::new();
    for _ in 0..CALLS {
        between(recorder, random, &mut receiver);
        let mut input: Vec<C32> = rest.into_iter().take(LONGEST).collect();
        let more = random.pick(&LENGTHS).min(LONGEST - input.len());
        input.extend(block(random, &mut signal, set_up.timing.sps, more));
        let places = 2 * random.pick(&PLACES);
        let called = recorder.call(&mut receiver, &flat(&input), places, places);
        rest = input.split_off(called.answer.consumed);
        if random.chance(0.1) {
            rest.clear();
        }
    }
}

/// The signal goes on, or is broken by another one or by odd values.
fn block(random: &mut Random, signal: &mut Signal, sps: f64, length: usize) -> Vec<C32> {
    match random.up_to(19) {
        0..14 => signal.block(random, length),
        14..17 => Signal::new(random, sps).block(random, length),
        _ => (0..length)
            .map(|_| C32::new(odd_value(random), odd_value(random)))
            .collect(),
    }
}

/// Now and then a reset, a phase, or a call that is refused.
fn between<K: Kernel>(recorder: &mut Recorder<K>, random: &mut Random, receiver: &mut Receiver) {
    match random.up_to(19) {
        0 => recorder.reset(receiver),
        1 | 2 => {
            let quarter = (random.up_to(3) as u32) << 30;
            let any = random.bits32();
            recorder.set_phase(receiver, random.pick(&[quarter, any]));
        }
        3..6 => {
            let [count, strobes, places] = random.pick(&REFUSED);
            let floats: Vec<f32> = (0..count).map(|_| odd_value(random)).collect();
            recorder.call(receiver, &floats, strobes, places);
        }
        _ => {}
    }
}

/// Lock that is found on a signal with noise and goes on for a while, and is lost in noise alone.
fn lock<K: Kernel>(
    recorder: &mut Recorder<K>,
    random: &mut Random,
    points: CostasConstellation,
    detector: Ted,
) {
    let timing = runs::Values {
        sps: 4.1,
        gain: 1.0,
        ..runs::ordinary(detector)
    };
    let set_up = Values::named(timing, carrier_runs::ordinary(points));
    let turns = some_turns(random, points);
    let mut receiver = recorder.opened(set_up, turns);
    let mut signal = signal_of(points, timing.sps);
    until(recorder, &mut receiver, true, || {
        signal.block(random, LONGEST)
    });
    for _ in 0..LOCKED {
        let input = flat::<C32>(&signal.block(random, LONGEST));
        recorder.call(&mut receiver, &input, LONGEST, LONGEST);
    }
    let mut noise = || C32::new(random.bell() as f32, random.bell() as f32);
    until(recorder, &mut receiver, false, || {
        (0..LONGEST).map(|_| noise()).collect()
    });
}

/// Calls until there is lock, or none.
fn until<K: Kernel>(
    recorder: &mut Recorder<K>,
    receiver: &mut Receiver,
    locked: bool,
    mut block: impl FnMut() -> Vec<C32>,
) {
    let mut left = WITHIN;
    while receiver.carrier.locked != locked {
        recorder.call(receiver, &flat(&block()), LONGEST, LONGEST);
        left = left.checked_sub(1).expect("the level gets there");
    }
}
