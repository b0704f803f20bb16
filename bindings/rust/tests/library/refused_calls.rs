//! A refused run changes neither its record nor a buffer, and its counts are 0 (A7); an odd count comes
//! before unequal lengths (A5). Labels are those of docs/SPECIFICATION.md.

use crate::{carrier, ramp, text, timing};
use train_receiver::{Carrier, ComplexTiming, Constellation, Detector, Receiver, Refusal, ffi};

/// Some lengths, the first of which are even.
const LENGTHS: [usize; 6] = [0, 2, 20, 1, 3, 21];

fn odd(lengths: &[usize]) -> bool {
    lengths.iter().any(|length| length % 2 == 1)
}

#[test]
fn complex_timing() {
    let mut x = ComplexTiming::set_up(timing(4.0, Detector::Gardner)).expect("accepted");
    assert!(x.run(&ramp(40), &mut [0.0; 8]).is_ok());
    for input in LENGTHS {
        for output in LENGTHS {
            let before = text(x.record());
            let mut y = x.clone();
            let mut buffer = ramp(output);
            let answer = y.run(&ramp(input), &mut buffer);
            if odd(&[input, output]) {
                assert_eq!(answer, Err(Refusal::Odd));
                assert_eq!(text(y.record()), before);
                assert_eq!(buffer, ramp(output));
            } else {
                assert!(answer.is_ok());
            }
        }
    }
}

#[test]
fn carrier_alone() {
    let mut x = Carrier::set_up(Constellation::Qpsk, carrier()).expect("accepted");
    assert_eq!(x.run(&ramp(40), &mut [0.0; 40]), Ok(()));
    for input in LENGTHS {
        for output in LENGTHS {
            let before = text(x.record());
            let mut y = x.clone();
            let mut buffer = ramp(output);
            let answer = y.run(&ramp(input), &mut buffer);
            let expected = if odd(&[input, output]) {
                Err(Refusal::Odd)
            } else if input != output {
                Err(Refusal::Uneven)
            } else {
                Ok(())
            };
            assert_eq!(answer, expected);
            if answer.is_err() {
                assert_eq!(text(y.record()), before);
                assert_eq!(buffer, ramp(output));
            }
        }
    }
}

#[test]
fn receiver() {
    let values = timing(4.0, Detector::Gardner);
    let mut x = Receiver::set_up(Constellation::Qpsk, values, carrier()).expect("accepted");
    let first = x.receive(&ramp(40), &mut [0.0; 8], &mut [0.0; 8]);
    assert!(first.is_ok() && x.count() > 0);
    for input in LENGTHS {
        for strobes in LENGTHS {
            for output in LENGTHS {
                let before = text(x.record());
                let mut y = x.clone();
                let (mut middle, mut buffer) = (ramp(strobes), ramp(output));
                let answer = y.receive(&ramp(input), &mut middle, &mut buffer);
                if odd(&[input, strobes, output]) {
                    assert_eq!(answer, Err(Refusal::Odd));
                } else if strobes != output {
                    assert_eq!(answer, Err(Refusal::Uneven));
                } else {
                    assert!(answer.is_ok());
                }
                if answer.is_err() {
                    assert_eq!(text(y.record()), before);
                    assert_eq!((middle, buffer), (ramp(strobes), ramp(output)));
                }
            }
        }
    }
}

/// The counts of a refused call, which `Result` does not show.
#[test]
fn counts_are_zero() {
    let values = timing(4.0, Detector::Gardner);
    let set_up = Receiver::set_up(Constellation::Qpsk, values, carrier());
    let mut record = *set_up.expect("accepted").record();
    let input = ramp(40);
    let (mut strobes, mut output) = ([0.0; 8], [0.0; 6]);
    // SAFETY: a set-up has given the record. The pointers and counts are those of arrays apart.
    let counts = unsafe {
        ffi::trr_receiver_receive(
            &mut record,
            input.as_ptr(),
            input.len(),
            strobes.as_mut_ptr(),
            strobes.len(),
            output.as_mut_ptr(),
            output.len(),
        )
    };
    let expected = ffi::Counts {
        number: 7,
        consumed: 0,
        produced: 0,
    };
    assert_eq!(counts, expected);
}
