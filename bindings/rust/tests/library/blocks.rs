//! A recording in blocks gives the same symbols as in one call.

use crate::{CONSTELLATIONS, DETECTORS, carrier, noise, text, timing};
use train_receiver::{RealTiming, Receiver};

const SAMPLES: usize = 600;

#[test]
fn real_timing() {
    let input = noise(SAMPLES);
    for ted in DETECTORS {
        let mut whole = RealTiming::set_up(timing(3.0, ted)).expect("accepted");
        let mut parts = whole.clone();
        let mut expected = vec![0.0; SAMPLES];
        let counts = whole.run(&input, &mut expected);
        assert_eq!(counts.consumed, SAMPLES);
        expected.truncate(counts.produced);
        let (mut symbols, mut at) = (Vec::<f32>::new(), 0);
        while at < SAMPLES {
            let mut output = [9.0; 4];
            let counts = parts.run(&input[at..SAMPLES.min(at + 25)], &mut output);
            symbols.extend(&output[..counts.produced]);
            // Places behind those produced stay as found.
            assert!(output[counts.produced..].iter().all(|place| *place == 9.0));
            at += counts.consumed;
        }
        assert_eq!(symbols, expected);
        assert_eq!(text(parts.record()), text(whole.record()));
    }
}

#[test]
fn receiver() {
    let input = noise(2 * SAMPLES);
    for ted in DETECTORS {
        for points in CONSTELLATIONS {
            let set_up = Receiver::set_up(points, timing(4.0, ted), carrier());
            let mut whole = set_up.expect("accepted");
            let mut parts = whole.clone();
            let (mut strobes, mut expected) = (vec![0.0; 2 * SAMPLES], vec![0.0; 2 * SAMPLES]);
            let answer = whole.receive(&input, &mut strobes, &mut expected);
            let counts = answer.expect("accepted");
            assert_eq!(counts.consumed, SAMPLES);
            assert_eq!(whole.count() as usize, counts.produced);
            expected.truncate(2 * counts.produced);
            let (mut symbols, mut at) = (Vec::<f32>::new(), 0);
            while at < SAMPLES {
                let (mut strobes, mut output) = ([9.0; 8], [9.0; 8]);
                let block = &input[2 * at..2 * SAMPLES.min(at + 25)];
                let answer = parts.receive(block, &mut strobes, &mut output);
                let counts = answer.expect("accepted");
                let end = 2 * counts.produced;
                symbols.extend(&output[..end]);
                // Places behind those produced stay as found.
                for place in strobes[end..].iter().chain(&output[end..]) {
                    assert_eq!(*place, 9.0);
                }
                at += counts.consumed;
            }
            assert_eq!(symbols, expected);
            assert_eq!(text(parts.record()), text(whole.record()));
        }
    }
}
