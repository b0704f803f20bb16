//! The cases that are run (X13 to X21 of docs/SPECIFICATION.md).

use crate::{DETECTORS, carrier, timing};
use train_receiver::{
    Carrier, ComplexTiming, Constellation, Detector, Progress, RealTiming, Receiver, Refusal,
};

/// Samples of input, places, and the counts that the case must have.
struct Case {
    sps: f64,
    samples: usize,
    places: usize,
    consumed: usize,
    produced: usize,
}

/// From a fresh loop: X13, X14 and X15 at 2 samples per symbol, which hold for both detectors; X16 (Gardner)
/// or X17 (Mueller-Müller) at 4.
fn cases(ted: Detector) -> [Case; 4] {
    let four = match ted {
        Detector::Gardner => 5,
        Detector::MuellerMuller => 6,
    };
    [
        (2.0, 3, 1, 3, 0),
        (2.0, 4, 1, 4, 1),
        (2.0, 4, 0, 3, 0),
        (4.0, 6, 1, four, 1),
    ]
    .map(|(sps, samples, places, consumed, produced)| Case {
        sps,
        samples,
        places,
        consumed,
        produced,
    })
}

impl Case {
    fn counts(&self) -> Progress {
        Progress {
            consumed: self.consumed,
            produced: self.produced,
        }
    }
}

/// 1, 2, 3 and so on.
fn numbers(length: usize) -> Vec<f32> {
    (1..=length).map(|k| k as f32).collect()
}

#[test]
fn real() {
    for ted in DETECTORS {
        for case in cases(ted) {
            let mut x = RealTiming::set_up(timing(case.sps, ted)).expect("accepted");
            let mut output = vec![-1.0; case.places];
            let counts = x.run(&numbers(case.samples), &mut output);
            assert_eq!(counts, case.counts());
            if case.places == 1 {
                let strobe = if case.produced == 1 { 2.0 } else { -1.0 };
                assert_eq!(output, [strobe]);
            }
        }
    }
}

#[test]
fn complex() {
    for ted in DETECTORS {
        for case in cases(ted) {
            let mut x = ComplexTiming::set_up(timing(case.sps, ted)).expect("accepted");
            let mut output = vec![-1.0; 2 * case.places];
            let counts = x.run(&numbers(2 * case.samples), &mut output);
            assert_eq!(counts, Ok(case.counts()));
            if case.produced == 1 {
                assert_eq!(output, [3.0, 4.0]);
            }
        }
    }
}

#[test]
fn receiver() {
    for ted in DETECTORS {
        for case in cases(ted) {
            let values = timing(case.sps, ted);
            let set_up = Receiver::set_up(Constellation::Qpsk, values, carrier());
            let mut x = set_up.expect("accepted");
            let mut strobes = vec![-1.0; 2 * case.places];
            let mut output = strobes.clone();
            let counts = x.receive(&numbers(2 * case.samples), &mut strobes, &mut output);
            assert_eq!(counts, Ok(case.counts()));
            assert_eq!(x.count() as usize, case.produced);
            if case.produced == 1 {
                assert_eq!(strobes, [3.0, 4.0]);
                // The phase of a fresh carrier is 0: it turns the first symbol by nothing.
                assert_eq!(output, [3.0, 4.0]);
            }
        }
    }
}

/// A level of exactly 0.5 sets no lock (X18), one of exactly 0.3 clears none (X19). BPSK samples on the axes
/// have no error, so phase and frequency stay 0. The last sample brings the level to the edge exactly, or to
/// the next number beyond it.
#[test]
fn levels() {
    let one = [1.0, 0.0];
    let rise = vec![one; 68];
    let fall = [vec![one; 70], vec![[0.0, 1.0]; 14]].concat();
    for (before, im, level, locked) in [
        (&rise, 0x3db9_94c9, 0.5, false),
        (&rise, 0x3db9_8c20, 0.5f32.next_up(), true),
        (&fall, 0x3fd0_8696, 0.3, true),
        (&fall, 0x3fd0_86c9, 0.3f32.next_down(), false),
    ] {
        let mut x = Carrier::set_up(Constellation::Bpsk, carrier()).expect("accepted");
        let input = [&before[..], &[[1.0, f32::from_bits(im)]]].concat();
        let input = input.as_flattened();
        let mut output = vec![0.0; input.len()];
        assert_eq!(x.run(input, &mut output), Ok(()));
        assert_eq!(output, input);
        assert_eq!((x.lock_level(), x.locked()), (level, locked));
    }
}

/// A detector gain of 5e-324 (X20), and samples per symbol one f64 below 2 (X21).
#[test]
fn numbers_of_set_ups() {
    for ted in DETECTORS {
        let mut steep = timing(2.0, ted);
        steep.ted_gain = 5e-324;
        let hasty = timing(2f64.next_down(), ted);
        for (values, refusal) in [(steep, Refusal::Gains), (hasty, Refusal::Pace)] {
            assert_eq!(RealTiming::set_up(values).err(), Some(refusal));
            assert_eq!(ComplexTiming::set_up(values).err(), Some(refusal));
            let receiver = Receiver::set_up_unnamed(values, carrier());
            assert_eq!(receiver.err(), Some(refusal));
        }
    }
}
