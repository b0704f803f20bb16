//! Set-ups: which values are refused, with which number, and which are accepted. Labels are those of
//! docs/SPECIFICATION.md.

use crate::{CONSTELLATIONS, carrier, timing, zeros};
use train_receiver::{
    Carrier, CarrierValues, ComplexTiming, Constellation, Detector, RealTiming, Receiver, Refusal,
    TimingValues, ffi,
};

/// The answer of all timing set-ups to these values, which must be the same.
fn timing_answer(values: TimingValues) -> Option<Refusal> {
    let real = RealTiming::set_up(values).err();
    let complex = ComplexTiming::set_up(values).err();
    let receiver = Receiver::set_up(Constellation::Psk8, values, carrier()).err();
    assert_eq!((real, complex), (receiver, receiver));
    receiver
}

/// The answer of all carrier set-ups to these values, which must be the same.
fn carrier_answer(values: CarrierValues) -> Option<Refusal> {
    let answers = CONSTELLATIONS.map(|points| Carrier::set_up(points, values).err());
    let timing = timing(4.0, Detector::Gardner);
    let unnamed = Receiver::set_up_unnamed(timing, values).err();
    assert_eq!(answers, [unnamed; 3]);
    unnamed
}

/// Both ends of a range are accepted; what is outside of it or not finite is refused.
fn range(lo: f64, hi: f64, refusal: Refusal, answer: impl Fn(f64) -> Option<Refusal>) {
    for accepted in [lo, hi, (lo + hi) / 2.0] {
        assert_eq!(answer(accepted), None, "{accepted}");
    }
    let outside = [lo.next_down(), hi.next_up()];
    for refused in [f64::NAN, f64::INFINITY, f64::NEG_INFINITY]
        .into_iter()
        .chain(outside)
    {
        assert_eq!(answer(refused), Some(refusal), "{refused}");
    }
}

#[test]
fn timing_ranges() {
    let ordinary = timing(4.0, Detector::Gardner);
    range(2.0, 1_000_000.0, Refusal::Pace, |sps| {
        timing_answer(TimingValues { sps, ..ordinary })
    });
    range(0.0001, 0.1, Refusal::Width, |loop_bw| {
        timing_answer(TimingValues {
            loop_bw,
            ..ordinary
        })
    });
    range(0.1, 4.0, Refusal::Damping, |damping| {
        timing_answer(TimingValues {
            damping,
            ..ordinary
        })
    });
    range(0.0, 0.05, Refusal::Pull, |max_deviation| {
        timing_answer(TimingValues {
            max_deviation,
            ..ordinary
        })
    });
}

#[test]
fn detector_gain() {
    let answer = |ted_gain| {
        timing_answer(TimingValues {
            ted_gain,
            ..timing(4.0, Detector::MuellerMuller)
        })
    };
    for refused in [0.0, -0.0, -1.0, f64::NAN, f64::INFINITY, f64::NEG_INFINITY] {
        assert_eq!(answer(refused), Some(Refusal::Slope), "{refused}");
    }
    assert_eq!(answer(5e-324), Some(Refusal::Gains));
    for accepted in [1e-300, 1.0, f64::MAX] {
        assert_eq!(answer(accepted), None, "{accepted}");
    }
}

#[test]
fn carrier_ranges() {
    let ordinary = carrier();
    range(0.0001, 0.2, Refusal::Width, |loop_bw| {
        carrier_answer(CarrierValues {
            loop_bw,
            ..ordinary
        })
    });
    range(0.1, 4.0, Refusal::Damping, |damping| {
        carrier_answer(CarrierValues {
            damping,
            ..ordinary
        })
    });
    range(0.0, 0.25, Refusal::Pull, |max_offset| {
        carrier_answer(CarrierValues {
            max_offset,
            ..ordinary
        })
    });
}

/// Of several wrong values the lowest number is answered (A4); a receiver answers for timing's values first
/// (R4).
#[test]
fn lowest_number_first() {
    let mut values = TimingValues {
        sps: 1.0,
        ted: Detector::Gardner,
        loop_bw: 1.0,
        damping: 5.0,
        max_deviation: 1.0,
        ted_gain: 0.0,
    };
    assert_eq!(timing_answer(values), Some(Refusal::Pace));
    values.sps = 4.0;
    assert_eq!(timing_answer(values), Some(Refusal::Width));
    values.loop_bw = 0.01;
    assert_eq!(timing_answer(values), Some(Refusal::Damping));
    values.damping = 1.0;
    assert_eq!(timing_answer(values), Some(Refusal::Pull));
    values.max_deviation = 0.01;
    assert_eq!(timing_answer(values), Some(Refusal::Slope));
    values.ted_gain = 5e-324;
    assert_eq!(timing_answer(values), Some(Refusal::Gains));

    let mut loops = CarrierValues {
        loop_bw: 1.0,
        damping: 5.0,
        max_offset: 1.0,
    };
    let both = Receiver::set_up(Constellation::Qpsk, values, loops).err();
    assert_eq!(both, Some(Refusal::Gains));
    assert_eq!(carrier_answer(loops), Some(Refusal::Width));
    loops.loop_bw = 0.01;
    assert_eq!(carrier_answer(loops), Some(Refusal::Damping));
    loops.damping = 1.0;
    assert_eq!(carrier_answer(loops), Some(Refusal::Pull));
}

/// A refused set-up gives no state (A6): in its place there are zeros (L3).
#[test]
fn zeros_in_the_place_of_a_state() {
    let t = ffi::TimingValues {
        sps: 1.0,
        ted: 1,
        loop_bw: 0.01,
        damping: 1.0,
        max_deviation: 0.01,
        ted_gain: 1.0,
    };
    let c = ffi::CarrierValues {
        loop_bw: 1.0,
        damping: 1.0,
        max_offset: 0.05,
    };
    // SAFETY: a set-up takes any values.
    let (real, complex, carrier, receiver) = unsafe {
        (
            ffi::trr_real_set_up(t),
            ffi::trr_complex_set_up(t),
            ffi::trr_carrier_set_up(2, c),
            ffi::trr_receiver_set_up(2, t, c),
        )
    };
    assert_eq!((real.number, complex.number), (1, 1));
    assert_eq!((carrier.number, receiver.number), (2, 1));
    assert!(zeros(&real.state), "{real:?}");
    assert!(zeros(&complex.state), "{complex:?}");
    assert!(zeros(&carrier.state), "{carrier:?}");
    assert!(zeros(&receiver.receiver), "{receiver:?}");
}
