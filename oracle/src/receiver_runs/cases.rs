//! The cases X13 to X21 of docs/SPECIFICATION.md, the top of the symbol count, and conversions.

use super::receiver::{Receiver, Values};
use super::{DETECTORS, Recorder, Turns};
use crate::carrier_runs::{self, edges, on_the_axes};
use crate::kernels::costas::CostasConstellation;
use crate::kernels::symbol_sync::Ted;
use crate::play::Kernel;
use crate::runs;
use crate::script::{flat, number};
use crate::types::C32;

/// The samples of a block.
const BLOCK: usize = 60;

/// Values with this pace and detector. The spacing stays, since it may not deviate.
fn values(sps: f64, detector: Ted, carrier: carrier_runs::Values) -> Values {
    let timing = runs::Values {
        sps,
        deviation: 0.0,
        gain: 1.0,
        ..runs::ordinary(detector)
    };
    Values::named(timing, carrier)
}

fn qpsk() -> carrier_runs::Values {
    carrier_runs::ordinary(CostasConstellation::Qpsk)
}

pub fn record<K: Kernel>(recorder: &mut Recorder<K>) {
    for detector in DETECTORS {
        paces(recorder, detector);
    }
    numbers(recorder);
    levels(recorder);
    top(recorder);
    old_top(recorder);
    conversions(recorder);
}

/// X13, X14 and X15 at 2 samples per symbol; X16 or X17, by the detector, at 4.
fn paces<K: Kernel>(recorder: &mut Recorder<K>, detector: Ted) {
    let ramp: Vec<f32> = (1u8..13).map(f32::from).collect();
    let four = if detector == Ted::Gardner { 5 } else { 6 };
    for (sps, count, places, consumed, produced) in [
        (2.0, 3, 1, 3, 0),
        (2.0, 4, 1, 4, 1),
        (2.0, 4, 0, 3, 0),
        (4.0, 6, 1, four, 1),
    ] {
        let (samples, phase) = (1, 2);
        let turns = Turns { samples, phase };
        let mut receiver = recorder.opened(values(sps, detector, qpsk()), turns);
        let called = recorder.call(&mut receiver, &ramp[..2 * count], 2 * places, 2 * places);
        let answer = called.answer;
        assert_eq!((answer.consumed, answer.produced), (consumed, produced));
        if produced == 1 {
            // The second sample.
            assert_eq!(called.strobes, [3.0, 4.0]);
        }
    }
}

/// A detector gain of 5e-324 (X20), and samples per symbol one f64 below 2 (X21).
fn numbers<K: Kernel>(recorder: &mut Recorder<K>) {
    let mut steep = values(2.0, Ted::Gardner, qpsk());
    steep.timing.gain = 5e-324;
    let hasty = values(2f64.next_down(), Ted::Gardner, qpsk());
    for (refused, expected) in [(steep, 6), (hasty, 1)] {
        assert_eq!(number(&Receiver::new(refused)), expected);
        recorder.set_up(
            refused,
            Turns {
                samples: 0,
                phase: 0,
            },
        );
    }
}

/// Levels of exactly 0.5 (X18) and 0.3 (X19), and their neighbours. The samples come with a zero before each,
/// so that the timing error is zero and each strobe is one of them.
fn levels<K: Kernel>(recorder: &mut Recorder<K>) {
    let zero = C32::new(0.0, 0.0);
    for edge in edges() {
        let spread = edge.samples.iter().flat_map(|sample| [zero, *sample]);
        let input: Vec<C32> = spread.chain([zero, zero]).collect();
        let carrier = on_the_axes(CostasConstellation::Bpsk);
        let (samples, phase) = (3, 1);
        let turns = Turns { samples, phase };
        let mut receiver = recorder.opened(values(2.0, Ted::Gardner, carrier), turns);
        for block in input.chunks(BLOCK) {
            recorder.call(&mut receiver, &flat(block), BLOCK + 4, BLOCK + 4);
        }
        let carrier = receiver.carrier;
        assert_eq!((carrier.level, carrier.locked), (edge.level, edge.locked));
        assert_eq!(receiver.count, edge.samples.len() as u64);
    }
}

/// So many symbols are left up to a top.
const BELOW: [u64; 6] = [20, 11, 10, 9, 1, 0];

/// A receiver that has made some symbols. Equal samples have no timing error, so that a call of 20 samples
/// gives 10 symbols.
fn underway<K: Kernel>(recorder: &mut Recorder<K>) -> Receiver {
    let (samples, phase) = (2, 3);
    let turns = Turns { samples, phase };
    let mut receiver = recorder.opened(values(2.0, Ted::MuellerMuller, qpsk()), turns);
    ten_more(recorder, &mut receiver);
    receiver
}

fn ten_more<K: Kernel>(recorder: &mut Recorder<K>, receiver: &mut Receiver) {
    let called = recorder.call(receiver, &[1f32; 40], 40, 40);
    assert_eq!(called.answer.number, 0);
}

/// A count that comes to the top, passes it and stays there (R18); a reset clears it.
fn top<K: Kernel>(recorder: &mut Recorder<K>) {
    for below in BELOW {
        let mut receiver = underway(recorder);
        recorder.set_count(&mut receiver, u64::MAX - below);
        for left in [below.saturating_sub(10), below.saturating_sub(20)] {
            ten_more(recorder, &mut receiver);
            assert_eq!(receiver.count, u64::MAX - left);
        }
        assert!(!recorder.convert(&mut receiver));
        recorder.reset(&mut receiver);
    }
}

/// A record of 32 bits, near its top or stuck there, converts with its count; calls count on from there (R20), and
/// the record is too large once they have passed that top (R21).
fn old_top<K: Kernel>(recorder: &mut Recorder<K>) {
    let old = u64::from(u32::MAX);
    for below in BELOW {
        let mut receiver = underway(recorder);
        recorder.set_count(&mut receiver, old - below);
        assert!(recorder.convert(&mut receiver));
        for more in [10, 20] {
            ten_more(recorder, &mut receiver);
            assert_eq!(receiver.count, old - below + more);
            assert_eq!(recorder.convert(&mut receiver), more <= below);
        }
        recorder.reset(&mut receiver);
        assert!(recorder.convert(&mut receiver));
    }
}

/// Counts around powers of two, and those whose lower half would fit.
fn conversions<K: Kernel>(recorder: &mut Recorder<K>) {
    let old = u64::from(u32::MAX);
    let mut receiver = underway(recorder);
    for count in [0, 1, 1 << 31, old - 1, old] {
        recorder.set_count(&mut receiver, count);
        assert!(recorder.convert(&mut receiver));
    }
    for count in [old + 1, old + 2, 1 << 33, 5 << 32, (1 << 63) + 7, u64::MAX] {
        recorder.set_count(&mut receiver, count);
        assert!(!recorder.convert(&mut receiver));
    }
}
