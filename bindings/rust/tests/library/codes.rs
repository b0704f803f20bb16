//! Codes (L4), and the numbers and texts of the refusals, are those of the C header. Labels are those of
//! docs/SPECIFICATION.md.

use crate::compiled::Program;
use crate::{CONSTELLATIONS, DETECTORS, carrier, timing};
use train_receiver::{Constellation, Detector, Refusal, ffi, symbol_number};

const HEADER: &str = include_str!("../../../c/train_receiver.h");

fn header_has(constant: &str, value: u32) {
    let line = format!("    {constant} = {value}");
    let found = HEADER
        .lines()
        .filter(|l| l.trim_end_matches(',') == line)
        .count();
    assert_eq!(found, 1, "{line}");
}

#[test]
fn refusals() {
    header_has("TRR_DONE", 0);
    for (k, refusal) in (1..).zip(Refusal::ALL) {
        assert_eq!(refusal.number(), k);
        header_has(&format!("TRR_{}", refusal.word().to_uppercase()), k);
    }
}

/// The texts are those of the C header.
#[test]
fn texts() {
    assert_eq!(
        Refusal::Pace.to_string(),
        "pace: the samples per symbol are not a finite number from 2 to 1,000,000"
    );
    let error: Box<dyn std::error::Error> = Box::new(Refusal::Odd);
    assert_eq!(
        error.to_string(),
        "odd: the count of f32 of a complex buffer is odd"
    );
    let source = r#"
        #include <stdio.h>
        #include "train_receiver.h"
        int main(void)
        {
            for (uint32_t number = 0; number < 10; number++) {
                printf("%s\n", trr_number_text(number));
            }
            for (uint32_t number = 99; number < 102; number++) {
                printf("%s\n", trr_number_text(number));
            }
            return 0;
        }
    "#;
    let printed = Program::of_text("texts.c", source).printed();
    let mut expected = vec!["done".to_string()];
    expected.extend(Refusal::ALL.map(|refusal| refusal.to_string()));
    let none = "not a number of this library";
    let too_large = "too large: the symbol count does not fit into 32 bits";
    expected.extend([none, none, too_large, none].map(String::from));
    assert_eq!(printed.lines().collect::<Vec<_>>(), expected);
}

#[test]
fn named_codes() {
    for (constant, detector) in ["TRR_GARDNER", "TRR_MUELLER_MUELLER"].iter().zip(DETECTORS) {
        header_has(constant, detector.code());
        assert_eq!(Detector::from_code(detector.code()), detector);
    }
    for (constant, points) in ["TRR_BPSK", "TRR_QPSK", "TRR_PSK8"]
        .iter()
        .zip(CONSTELLATIONS)
    {
        header_has(constant, points.code());
        assert_eq!(Constellation::from_code(points.code()), points);
    }
    header_has("TRR_NO_SYMBOL", 255);
    assert_eq!(ffi::NO_SYMBOL, 255);
    header_has("TRR_TOO_LARGE", 100);
    assert_eq!(ffi::TOO_LARGE, 100);
}

#[test]
fn other_codes_read_as_the_last_one() {
    let values = timing(4.0, Detector::Gardner);
    let loops = carrier();
    for code in [3, 7, u32::MAX] {
        let t = ffi::TimingValues {
            sps: values.sps,
            ted: code,
            loop_bw: values.loop_bw,
            damping: values.damping,
            max_deviation: values.max_deviation,
            ted_gain: values.ted_gain,
        };
        let c = ffi::CarrierValues {
            loop_bw: loops.loop_bw,
            damping: loops.damping,
            max_offset: loops.max_offset,
        };
        // SAFETY: a set-up takes any values.
        let answer = unsafe { ffi::trr_receiver_set_up(code, t, c) };
        assert_eq!(answer.number, 0);
        assert_eq!(answer.receiver.timing.params.ted, 1);
        assert_eq!(answer.receiver.carrier.constellation, 2);
        // SAFETY: the function takes any code and any f32.
        let number = unsafe { ffi::trr_symbol_number(code, 1.0, -0.5) };
        assert_eq!(number, 7);
        assert_eq!(Detector::from_code(code), Detector::MuellerMuller);
        assert_eq!(Constellation::from_code(code), Constellation::Psk8);
    }
}

#[test]
fn symbol_numbers() {
    // One sample in the middle of each octant.
    let around = [
        (2.0, 1.0),
        (1.0, 2.0),
        (-1.0, 2.0),
        (-2.0, 1.0),
        (-2.0, -1.0),
        (-1.0, -2.0),
        (1.0, -2.0),
        (2.0, -1.0),
    ];
    for (k, (re, im)) in around.into_iter().enumerate() {
        assert_eq!(symbol_number(Constellation::Psk8, re, im), Some(k));
        assert_eq!(symbol_number(Constellation::Qpsk, re, im), Some(k / 2));
        let left = usize::from(re < 0.0);
        assert_eq!(symbol_number(Constellation::Bpsk, re, im), Some(left));
    }
    // A sample at the start of an octant belongs to it (X9, X10).
    assert_eq!(symbol_number(Constellation::Psk8, 1.0, 1.0), Some(1));
    assert_eq!(symbol_number(Constellation::Psk8, 0.0, 1.0), Some(2));
    // Under BPSK the imaginary part decides if the real part is zero (R11).
    assert_eq!(symbol_number(Constellation::Bpsk, 0.0, -1.0), Some(1));
    assert_eq!(symbol_number(Constellation::Bpsk, -0.0, 1.0), Some(0));
}

/// Whether a sample reads none, which it does under all constellations or under none of them.
fn reads_none(re: f32, im: f32) -> bool {
    let read = CONSTELLATIONS.map(|points| symbol_number(points, re, im).is_none());
    assert_eq!(read, [read[0]; 3], "{re} {im}");
    for points in CONSTELLATIONS {
        // SAFETY: the function takes any code and any f32.
        let code = unsafe { ffi::trr_symbol_number(points.code(), re, im) };
        assert_eq!(code == 255, read[0], "{re} {im}");
    }
    read[0]
}

#[test]
fn a_program_in_c_tells_none_from_a_number() {
    let source = r#"
        #include <math.h>
        #include <stdio.h>
        #include "train_receiver.h"
        static void show(float re, float im)
        {
            size_t symbol = trr_symbol_number(TRR_QPSK, re, im);
            if (symbol == TRR_NO_SYMBOL) {
                printf("-");
            } else {
                printf("%zu", symbol);
            }
        }
        int main(void)
        {
            show(1.0f, 1.0f);
            show(0.0f, -0.0f);
            show(-1.0f, 0.0f);
            show(-1.0f, NAN);
            show(NAN, 0.0f);
            show(0.0f, -1e-45f);
            show(-INFINITY, INFINITY);
            printf("\n");
            return 0;
        }
    "#;
    assert_eq!(Program::of_text("none.c", source).printed(), "0-2--31\n");
}

#[test]
fn silence_and_nan_have_no_number() {
    let least = f32::from_bits(1);
    let others = [
        1.0,
        -1.0,
        least,
        -least,
        f32::MAX,
        f32::INFINITY,
        -f32::INFINITY,
    ];
    for zero in [0.0, -0.0] {
        assert!(reads_none(zero, 0.0) && reads_none(zero, -0.0));
        assert!(reads_none(zero, f32::NAN) && reads_none(f32::NAN, zero));
        assert!(
            others
                .iter()
                .all(|&x| !reads_none(zero, x) && !reads_none(x, zero))
        );
    }
    assert!(reads_none(f32::NAN, f32::NAN));
    for x in others {
        assert!(reads_none(x, f32::NAN) && reads_none(f32::NAN, x));
        assert!(others.iter().all(|&y| !reads_none(x, y)));
    }
}
