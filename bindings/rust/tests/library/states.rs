//! Fresh states, resets, setters and readings. Labels are those of docs/SPECIFICATION.md.

use crate::{CONSTELLATIONS, DETECTORS, carrier, ramp, text, timing};
use train_receiver::{
    Carrier, ComplexTiming, Constellation, Detector, RealTiming, Receiver, Sample, Timing,
};

fn fresh_timing<S: Sample>() {
    for ted in DETECTORS {
        let values = timing(5.5, ted);
        let x = Timing::<S>::set_up(values).expect("accepted");
        assert_eq!(x.values(), values);
        // A fresh loop (T6): the next strobe is at the second sample of the input.
        assert_eq!((x.next_strobe(), x.sps_estimate()), (1.0, 5.5));
        assert_eq!(x.record().track.clock.i, 4);
    }
}

#[test]
fn fresh() {
    fresh_timing::<f32>();
    fresh_timing::<train_receiver::C32>();
    for points in CONSTELLATIONS {
        let x = Carrier::set_up(points, carrier()).expect("accepted");
        assert_eq!((x.constellation(), x.values()), (points, carrier()));
        // A fresh carrier (C7).
        assert_eq!((x.phase(), x.frequency()), (0, 0.0));
        assert_eq!((x.lock_level(), x.locked()), (0.0, false));
    }
}

#[test]
fn fresh_receiver() {
    let values = timing(4.0, Detector::MuellerMuller);
    for points in CONSTELLATIONS {
        let x = Receiver::set_up(points, values, carrier()).expect("accepted");
        assert_eq!(x.constellation(), points);
        assert_eq!((x.timing_values(), x.carrier_values()), (values, carrier()));
        assert_eq!((x.next_strobe(), x.sps_estimate()), (1.0, 4.0));
        assert_eq!((x.phase(), x.frequency(), x.count()), (0, 0.0, 0));
        assert_eq!((x.lock_level(), x.locked()), (0.0, false));
    }
    // Without a constellation (R3).
    let unnamed = Receiver::set_up_unnamed(values, carrier()).expect("accepted");
    assert_eq!(unnamed.constellation(), Constellation::Bpsk);
}

#[test]
fn resets() {
    for ted in DETECTORS {
        let values = timing(4.0, ted);
        let mut x = RealTiming::set_up(values).expect("accepted");
        let fresh = text(x.record());
        assert_eq!(x.run(&ramp(40), &mut [0.0; 40]).consumed, 40);
        assert_ne!(text(x.record()), fresh);
        x.reset();
        assert_eq!(text(x.record()), fresh);

        let mut x = ComplexTiming::set_up(values).expect("accepted");
        let fresh = text(x.record());
        assert!(x.run(&ramp(40), &mut [0.0; 40]).is_ok());
        assert_ne!(text(x.record()), fresh);
        x.reset();
        assert_eq!(text(x.record()), fresh);

        let mut x = Receiver::set_up(Constellation::Qpsk, values, carrier()).expect("accepted");
        let fresh = text(x.record());
        x.set_phase(5);
        assert!(x.receive(&ramp(40), &mut [0.0; 40], &mut [0.0; 40]).is_ok());
        assert!(x.count() > 0);
        x.reset();
        assert_eq!(text(x.record()), fresh);
    }
    let mut x = Carrier::set_up(Constellation::Psk8, carrier()).expect("accepted");
    let fresh = text(x.record());
    assert_eq!(x.run(&ramp(40), &mut [0.0; 40]), Ok(()));
    assert_ne!(text(x.record()), fresh);
    x.reset();
    assert_eq!(text(x.record()), fresh);
}

#[test]
fn phases() {
    let mut x = Carrier::set_up(Constellation::Qpsk, carrier()).expect("accepted");
    x.set_frequency(0.03125);
    x.set_phase(u32::MAX);
    assert_eq!((x.phase(), x.frequency()), (u32::MAX, 0.03125));
    let values = timing(4.0, Detector::Gardner);
    let mut x = Receiver::set_up(Constellation::Qpsk, values, carrier()).expect("accepted");
    x.set_phase(1 << 30);
    assert_eq!(x.phase(), 1 << 30);
    // A quarter turn on the phase turns (1, 0) to (0, -1).
    let input = [0.0, 0.0, 1.0, 0.0, 0.0, 0.0, 0.0, 0.0];
    let (mut strobes, mut output) = ([7.0; 2], [7.0; 2]);
    assert!(x.receive(&input, &mut strobes, &mut output).is_ok());
    assert_eq!((strobes, output), ([1.0, 0.0], [0.0, -1.0]));
    assert_eq!(x.count(), 1);
}

/// Frequencies that are set (C9): an ordinary one, two beyond the limit, a tiny one, NaN.
#[test]
fn frequencies() {
    let mut x = Carrier::set_up(Constellation::Qpsk, carrier()).expect("accepted");
    let limit = f64::from(0.05f32);
    for (given, taken) in [
        (0.01, f64::from(0.01f32)),
        (1.0, limit),
        (f64::NEG_INFINITY, -limit),
        (1e-31, 0.0),
        (f64::NAN, 0.0),
    ] {
        x.set_frequency(given);
        assert_eq!(x.frequency(), taken, "{given}");
        assert_eq!((x.phase(), x.lock_level(), x.locked()), (0, 0.0, false));
    }
}
