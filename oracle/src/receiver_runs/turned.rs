//! Turned recordings (part Q of docs/SPECIFICATION.md): a list of calls, and the same list with each input
//! turned, from a receiver whose phase is quarter turns on, for all turns that Q3 allows. The original's two
//! lists must agree as Q7 and Q8 say.

use super::receiver::{Receiver, Values, samples};
use super::{Called, Recorder, Turns};
use crate::carrier_runs;
use crate::kernels::costas::CostasConstellation;
use crate::kernels::symbol_sync::Ted;
use crate::play::Kernel;
use crate::random::Random;
use crate::runs;
use crate::script::flat;
use crate::signal::{Signal, odd_value};
use crate::types::C32;

/// A quarter turn of a phase.
const QUARTER: u32 = 1 << 30;

/// The inputs of a list, as long as these; the places follow.
const LENGTHS: [usize; 8] = [31, 0, 17, 40, 5, 12, 40, 9];
const PLACES: [usize; 8] = [16, 2, 1, 24, 0, 12, 5, 20];

/// A sample call: its input, and the f32 of strobe buffer and output.
struct Call {
    input: Vec<f32>,
    strobes: usize,
    places: usize,
}

/// What a list gave: each call, and the record after the last.
struct Outcome {
    calls: Vec<Called>,
    receiver: Receiver,
}

pub fn record<K: Kernel>(
    recorder: &mut Recorder<K>,
    random: &mut Random,
    points: CostasConstellation,
    detector: Ted,
) {
    let timing = runs::Values {
        sps: random.pick(&[2.0, 2.3, 4.1]),
        deviation: 0.05,
        gain: 0.5,
        ..runs::ordinary(detector)
    };
    let carrier = carrier_runs::Values {
        bandwidth: 0.1,
        offset: 0.25,
        ..carrier_runs::ordinary(points)
    };
    let values = Values::named(timing, carrier);
    let calls = list(random, points, timing.sps);
    let beside = random.pick(&Turns::allowed(points));
    let mut receiver = recorder.opened(values, beside);
    let straight = played(recorder, &mut receiver, &calls);
    for turns in Turns::allowed(points) {
        let mut receiver = recorder.opened(values, turns.back());
        recorder.set_phase(&mut receiver, turns.phase * QUARTER);
        let turned: Vec<Call> = calls
            .iter()
            .map(|call| call.turned(turns.samples))
            .collect();
        let turned = played(recorder, &mut receiver, &turned);
        check(&straight, &turned, turns);
    }
}

/// A list: calls on a signal, with odd values in two of them, and three that are refused.
fn list(random: &mut Random, points: CostasConstellation, sps: f64) -> Vec<Call> {
    let order = points.psk_order().expect("a constellation on the circle");
    let mut signal = Signal::ordinary(order as usize, sps).carried(0.1, 0.01);
    let mut calls = Vec::new();
    for (place, (length, places)) in LENGTHS.into_iter().zip(PLACES).enumerate() {
        let mut block: Vec<C32> = signal.block(random, length);
        if place > 4 {
            let odd = random.up_to(length - 1);
            block[odd] = C32::new(odd_value(random), odd_value(random));
        }
        calls.push(Call {
            input: flat(&block),
            strobes: 2 * places,
            places: 2 * places,
        });
    }
    for (at, [count, strobes, places]) in [(2, [5, 4, 4]), (4, [6, 4, 2]), (7, [6, 3, 4])] {
        let block: Vec<C32> = signal.block(random, 3);
        let input = flat(&block)[..count].to_vec();
        calls.insert(
            at,
            Call {
                input,
                strobes,
                places,
            },
        );
    }
    calls
}

impl Call {
    /// The same call with the samples turned. An f32 that is left over stays.
    fn turned(&self, turns: u32) -> Self {
        let whole = samples(&self.input).into_iter().map(|z| turn(z, turns));
        let whole: Vec<C32> = whole.collect();
        let rest = &self.input[2 * whole.len()..];
        Self {
            input: [&flat(&whole), rest].concat(),
            strobes: self.strobes,
            places: self.places,
        }
    }
}

fn played<K: Kernel>(recorder: &mut Recorder<K>, r: &mut Receiver, calls: &[Call]) -> Outcome {
    let each = |call: &Call| recorder.call(r, &call.input, call.strobes, call.places);
    let calls = calls.iter().map(each).collect();
    let receiver = *r;
    Outcome { calls, receiver }
}

/// The sample after so many quarter turns (Q1).
fn turn(z: C32, turns: u32) -> C32 {
    (0..turns).fold(z, |z, _| C32::new(-z.im, z.re))
}

/// Q7 and Q8 of two lists.
fn check(straight: &Outcome, turned: &Outcome, turns: Turns) {
    for (first, second) in straight.calls.iter().zip(&turned.calls) {
        assert_eq!(first.answer, second.answer);
        let produced = first.answer.produced;
        let less = (turns.samples + 4 - turns.phase) % 4;
        let strobes = (&first.strobes, &second.strobes, turns.samples);
        for (first, second, turns) in [strobes, (&first.output, &second.output, less)] {
            let pairs = samples(first).into_iter().zip(samples(second));
            for (first, second) in pairs.take(produced) {
                let first = turn(first, turns);
                assert!(alike(first.re, second.re) && alike(first.im, second.im));
            }
        }
    }
    let (first, second) = (straight.receiver, turned.receiver);
    assert_eq!(first.count, second.count);
    assert_eq!(first.timing.next_strobe(), second.timing.next_strobe());
    assert_eq!(first.timing.sps_estimate(), second.timing.sps_estimate());
    assert_eq!(first.carrier.frequency(), second.carrier.frequency());
    assert_eq!(first.carrier.lock_level(), second.carrier.lock_level());
    assert_eq!(first.carrier.locked(), second.carrier.locked());
    let phase = first.carrier.phase();
    let on = phase.wrapping_add(turns.phase * QUARTER);
    assert_eq!(second.carrier.phase(), on);
}

/// Alike in the sense of N10: the same number, whatever a zero's sign, or two NaN.
fn alike(x: f32, y: f32) -> bool {
    x == y || (x.is_nan() && y.is_nan())
}
