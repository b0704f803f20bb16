//! Conversions between the receiver record and the one before it, whose count had 32 bits. Labels are those of
//! docs/SPECIFICATION.md.

use crate::compiled::Program;
use crate::{CONSTELLATIONS, DETECTORS, carrier, fields, noise, text, timing, zeros};
use train_receiver::{C32, Constellation, Detector, Progress, Receiver, Receiver32, ffi};

/// How many complex samples a call is given.
const SAMPLES: usize = 300;

/// The largest count of 32 bits.
const LARGEST: u64 = 4_294_967_295;

/// A call on so many samples: its answer, the strobes and the output.
fn answered(x: &mut Receiver, input: &[f32]) -> (Progress, Vec<f32>, Vec<f32>) {
    assert_eq!(input.len(), 2 * SAMPLES);
    let (mut strobes, mut output) = (vec![9.0; 2 * SAMPLES], vec![9.0; 2 * SAMPLES]);
    let answer = x.receive(input, &mut strobes, &mut output);
    let progress = answer.expect("accepted");
    assert!(progress.produced > 1);
    (progress, strobes, output)
}

/// A call on noise: its answer, the strobes and the output.
fn received(x: &mut Receiver) -> (Progress, Vec<f32>, Vec<f32>) {
    answered(x, &noise(2 * SAMPLES))
}

/// A receiver of each detector and each constellation, which has received noise.
fn receivers() -> Vec<Receiver> {
    let mut list = Vec::new();
    for ted in DETECTORS {
        for points in CONSTELLATIONS {
            let set_up = Receiver::set_up(points, timing(4.0, ted), carrier());
            let mut x = set_up.expect("accepted");
            let (progress, ..) = received(&mut x);
            assert_eq!(progress.consumed, SAMPLES);
            list.push(x);
        }
    }
    list
}

/// The record with another count, as a longer recording could have left it.
fn counted(x: &Receiver, count: u64) -> ffi::Receiver {
    ffi::Receiver {
        count,
        ..*x.record()
    }
}

/// A receiver of such a record.
fn with_count(x: &Receiver, count: u64) -> Receiver {
    // SAFETY: the library has given all fields but the count, and a run may leave any count.
    unsafe { Receiver::from_record(counted(x, count)) }
}

/// The same as an earlier record.
fn earlier(x: &Receiver, count: u32) -> ffi::Receiver32 {
    ffi::Receiver32 {
        timing: x.record().timing,
        carrier: x.record().carrier,
        count,
    }
}

/// An earlier record whose count has stopped.
fn stopped(x: &Receiver) -> Receiver32 {
    // SAFETY: the library has given all fields but the count, and a run may leave any count.
    unsafe { Receiver32::from_record(earlier(x, u32::MAX)) }
}

/// A receiver that comes of such a record and has received one symbol more.
fn one_more(x: &Receiver) -> Receiver {
    let mut y = stopped(x).widened();
    let answer = y.receive(&noise(2 * SAMPLES), &mut [0.0; 2], &mut [0.0; 2]);
    assert_eq!(answer.expect("accepted").produced, 1);
    y
}

fn widen(x: ffi::Receiver32) -> ffi::Receiver {
    // SAFETY: a conversion takes any record.
    unsafe { ffi::trr_receiver_widen(x) }
}

fn narrow(x: ffi::Receiver) -> ffi::ReceiverNarrowed {
    // SAFETY: a conversion takes any record.
    unsafe { ffi::trr_receiver_narrow(x) }
}

/// R20.
#[test]
fn up_keeps_every_field() {
    for x in receivers() {
        for count in [0, 308, u32::MAX] {
            let old = earlier(&x, count);
            assert_eq!(fields(&widen(old)), fields(&old));
        }
    }
}

/// R21.
#[test]
fn down_keeps_every_field() {
    for x in receivers() {
        for count in [0, 308, LARGEST] {
            let record = counted(&x, count);
            let answer = narrow(record);
            assert_eq!(answer.number, 0);
            assert_eq!(fields(&answer.receiver), fields(&record));
        }
    }
}

/// R22.
#[test]
fn down_after_up_gives_the_record_back() {
    for x in receivers() {
        for count in [0, 308, u32::MAX] {
            let old = earlier(&x, count);
            let back = narrow(widen(old));
            assert_eq!((back.number, text(&back.receiver)), (0, text(&old)));
        }
    }
}

/// R22.
#[test]
fn up_after_down_gives_the_receiver_back() {
    for x in receivers() {
        let back = x.narrowed().expect("it fits").widened();
        assert_eq!(text(back.record()), text(x.record()));
    }
}

/// R21, L13.
#[test]
fn a_count_above_32_bits_is_too_large_and_gives_zeros() {
    for x in receivers() {
        for count in [LARGEST + 1, LARGEST << 32, u64::MAX] {
            let answer = narrow(counted(&x, count));
            assert_eq!(answer.number, ffi::TOO_LARGE, "{count}");
            assert!(zeros(&answer.receiver), "{answer:?}");
        }
    }
}

#[test]
fn too_large_says_the_count_and_leaves_the_receiver() {
    for x in receivers() {
        let y = one_more(&x);
        let before = text(y.record());
        let error = y.narrowed().expect_err("it does not fit");
        assert_eq!(error.count(), LARGEST + 1);
        assert_eq!(
            error.to_string(),
            "too large: the symbol count 4294967296 does not fit into 32 bits"
        );
        assert_eq!(text(y.record()), before);
        let most = with_count(&x, u64::MAX);
        let error = most.narrowed().expect_err("it does not fit");
        assert_eq!(error.count(), u64::MAX);
    }
}

#[test]
fn a_count_that_stopped_goes_on() {
    for x in receivers() {
        let mut y = stopped(&x).widened();
        assert_eq!(y.count(), LARGEST);
        let (progress, ..) = received(&mut y);
        assert_eq!(y.count(), LARGEST + progress.produced as u64);
    }
}

/// R24.
#[test]
fn the_count_steers_nothing() {
    for mut x in receivers() {
        let mut y = stopped(&x).widened();
        assert_eq!(text(&received(&mut y)), text(&received(&mut x)));
        let (x, y) = (x.record(), y.record());
        assert_eq!(text(&(y.timing, y.carrier)), text(&(x.timing, x.carrier)));
    }
}

/// R23: answers, strobes, outputs and the records after the call.
#[test]
fn a_converted_receiver_receives_like_the_unconverted_one() {
    for mut x in receivers() {
        let mut y = x.narrowed().expect("it fits").widened();
        assert_eq!(text(&received(&mut y)), text(&received(&mut x)));
        assert_eq!(text(y.record()), text(x.record()));
    }
}

/// R23.
#[test]
fn a_converted_receiver_is_set_and_reset_like_the_unconverted_one() {
    for mut x in receivers() {
        let mut y = x.narrowed().expect("it fits").widened();
        for one in [&mut x, &mut y] {
            one.set_phase(1 << 30);
        }
        assert_eq!(text(y.record()), text(x.record()));
        for one in [&mut x, &mut y] {
            one.reset();
        }
        assert_eq!(text(y.record()), text(x.record()));
    }
}

/// R18.
#[test]
fn the_count_stops_at_the_top_of_64_bits() {
    for x in receivers() {
        let (progress, ..) = received(&mut x.clone());
        let produced = progress.produced as u64;
        for (before, after) in [
            (u64::MAX - produced - 1, u64::MAX - 1),
            (u64::MAX - produced, u64::MAX),
            (u64::MAX - 1, u64::MAX),
            (u64::MAX, u64::MAX),
        ] {
            let mut y = with_count(&x, before);
            assert_eq!(received(&mut y).0, progress);
            assert_eq!(y.record().count, after);
            assert_eq!(y.count(), after);
        }
    }
}

#[test]
fn the_traits_convert_as_the_methods_do() {
    for x in receivers() {
        let old = Receiver32::try_from(&x).expect("it fits");
        assert_eq!(fields(old.record()), fields(x.record()));
        assert_eq!(text(Receiver::from(&old).record()), text(x.record()));
        assert_eq!(text(Receiver::from(old).record()), text(x.record()));
        let error = Receiver32::try_from(&one_more(&x)).expect_err("it does not fit");
        assert_eq!(Err(error), one_more(&x).narrowed().map(|_| ()));
    }
}

/// The bytes of a receiver record of the earlier library, made with its header: the fields hold 1, 2, 3 and so
/// on, but for three truth values and the count. The bytes between them are a5.
const STORED: &str = "
    000000000000f03f 02000000a5a5a5a5 0000000000000840 0000000000001040 0000000000001440
    0000000000001840 0000000000001c40 0000000000002040 0000000000002240 0000204100003041
    0000404100005041 0000604100007041 1000000000000000 0000000000003140 0000000000003240
    0000000000003340 0000a0410000a841 0000b0410000b841 0000c0410000c841 0100a5a5a5a5a5a5
    1c000000a5a5a5a5 0000000000003d40 0000000000003e40 0000000000003f40 0000004200000442
    00000842a5a5a5a5 2300000000001042 0000144201a5a5a5 ffffffffa5a5a5a5
";

/// The earlier record of such bytes, which must hold 0 or 1 where it has a truth value.
unsafe fn stored(words: &str) -> ffi::Receiver32 {
    let words = words.split_whitespace();
    let words = words.map(|word| u64::from_str_radix(word, 16).expect("a word"));
    let bytes: Vec<u8> = words.flat_map(u64::to_be_bytes).collect();
    assert_eq!(bytes.len(), size_of::<ffi::Receiver32>());
    // SAFETY: the bytes are as many as a record has, and the caller sees to the truth values.
    unsafe { bytes.as_ptr().cast::<ffi::Receiver32>().read_unaligned() }
}

/// R19.
#[test]
fn stored_bytes_are_an_earlier_record() {
    // SAFETY: the truth values are 1, 0 and 1.
    let old = unsafe { stored(STORED) };
    let expected = "1.0 2 3.0 4.0 5.0 6.0 7.0 8.0 9.0 10.0 11.0 12.0 13.0 14.0 15.0 16 17.0 18.0 19.0 \
                    20.0 21.0 22.0 23.0 24.0 25.0 true false 28 29.0 30.0 31.0 32.0 33.0 34.0 35 36.0 \
                    37.0 true 4294967295";
    assert_eq!(fields(&old).join(" "), expected);
    assert_eq!(fields(&widen(old)).join(" "), expected);
}

/// The bytes of a receiver record that the earlier library wrote. A program in C, with its header, set up QPSK
/// with `timing(4.0, Detector::Gardner)` and `carrier()`, received the first `SAMPLES` samples of `steps` in one
/// call and printed the record.
const WRITTEN: &str = "
    0000000000001040 0000000000000000 7b14ae47e17a843f 000000000000f03f 7b14ae47e17a743f
    000000000000f03f cff59deffd1fc03f 922087511083503f 7b14ae47e17a943f 0000a03e0000b0bf
    0000703f000040bf 0000c83f000000be 0400000000000000 801097da2b46a83f 4fb324d72d001040
    70a2a75992eb263f 54af893e2480bbbf 0000000000000000 2a7083bfd215b53f 0001000000000000
    010000002c010000 7b14ae47e17a843f 000000000000f03f 9a9999999999a93f 613fa43b85302838
    cdcc4c3d00000000 dbe894163f6b1b3a 3a9090bc00000000 4b00000000000000
";

/// The signal of `WRITTEN`: the f32 number k is ((37 k + 11) mod 64 - 32) / 16, which is exact.
fn steps(from: usize, to: usize) -> Vec<f32> {
    let step = |k: usize| ((37 * k + 11) % 64) as f32 / 16.0 - 2.0;
    (from..to).map(step).collect()
}

/// R19, R23: answers, strobes, outputs and the records.
#[test]
fn a_receiver_stored_by_the_earlier_library_goes_on() {
    let values = timing(4.0, Detector::Gardner);
    let set_up = Receiver::set_up(Constellation::Qpsk, values, carrier());
    let mut x = set_up.expect("accepted");
    let (progress, ..) = answered(&mut x, &steps(0, 2 * SAMPLES));
    assert_eq!((progress.consumed, progress.produced), (SAMPLES, 75));
    // SAFETY: the earlier library has written the record.
    let mut y = unsafe { Receiver32::from_record(stored(WRITTEN)) }.widened();
    assert_eq!(y.count(), 75);
    assert_eq!(text(y.record()), text(x.record()));
    let second = steps(2 * SAMPLES, 4 * SAMPLES);
    assert_eq!(
        text(&answered(&mut y, &second)),
        text(&answered(&mut x, &second))
    );
    assert_eq!(text(y.record()), text(x.record()));
}

/// Numbers of 64 bits that a program seldom meets: NaNs with payloads and of both signs, of which two are
/// signalling, minus zero, infinities and subnormal numbers.
const ODD_64: [u64; 9] = [
    0x7ff8_0000_1234_5678,
    0xfff8_9abc_def0_0001,
    0x7ff0_0000_0000_0001,
    0xfff4_0000_0000_00a5,
    0x8000_0000_0000_0000,
    0x7ff0_0000_0000_0000,
    0xfff0_0000_0000_0000,
    0x0000_0000_0000_0001,
    0x800f_ffff_ffff_ffff,
];

/// The like of 32 bits.
const ODD_32: [u32; 9] = [
    0x7fc1_2345,
    0xffc6_789a,
    0x7f80_0001,
    0xffa0_00a5,
    0x8000_0000,
    0x7f80_0000,
    0xff80_0000,
    0x0000_0001,
    0x807f_ffff,
];

/// The floating-point fields of 64 bits.
fn doubles<'a>(t: &'a mut ffi::Timing<C32>, c: &'a mut ffi::Carrier) -> [&'a mut f64; 14] {
    let (p, clock, q) = (&mut t.params, &mut t.track.clock, &mut c.params);
    [
        &mut p.sps,
        &mut p.loop_bw,
        &mut p.damping,
        &mut p.max_deviation,
        &mut p.ted_gain,
        &mut p.kp,
        &mut p.ki,
        &mut p.lim,
        &mut clock.mu,
        &mut clock.omega,
        &mut clock.integ,
        &mut q.loop_bw,
        &mut q.damping,
        &mut q.max_offset,
    ]
}

/// The floating-point fields of 32 bits.
fn singles<'a>(t: &'a mut ffi::Timing<C32>, c: &'a mut ffi::Carrier) -> [&'a mut f32; 17] {
    let (hist, track) = (&mut t.hist, &mut t.track);
    [
        &mut hist.a.re,
        &mut hist.a.im,
        &mut hist.b.re,
        &mut hist.b.im,
        &mut hist.c.re,
        &mut hist.c.im,
        &mut track.y_prev.re,
        &mut track.y_prev.im,
        &mut track.d_prev.re,
        &mut track.d_prev.im,
        &mut track.mid.re,
        &mut track.mid.im,
        &mut c.params.kp,
        &mut c.params.ki,
        &mut c.params.max,
        &mut c.track.nco.freq,
        &mut c.track.lock.level,
    ]
}

/// The bits of these fields.
fn bits(mut t: ffi::Timing<C32>, mut c: ffi::Carrier) -> ([u64; 14], [u32; 17]) {
    let wide = doubles(&mut t, &mut c).map(|x| x.to_bits());
    (wide, singles(&mut t, &mut c).map(|x| x.to_bits()))
}

/// R20, R21: each of these fields holds each odd value once.
#[test]
fn odd_values_keep_their_bits() {
    let x = &receivers()[0];
    for turn in 0..ODD_64.len() {
        let mut old = earlier(x, 308);
        let wide: [u64; 14] = std::array::from_fn(|k| ODD_64[(k + turn) % ODD_64.len()]);
        let small: [u32; 17] = std::array::from_fn(|k| ODD_32[(k + turn) % ODD_32.len()]);
        for (field, odd) in doubles(&mut old.timing, &mut old.carrier)
            .into_iter()
            .zip(wide)
        {
            *field = f64::from_bits(odd);
        }
        for (field, odd) in singles(&mut old.timing, &mut old.carrier)
            .into_iter()
            .zip(small)
        {
            *field = f32::from_bits(odd);
        }
        assert_eq!(bits(old.timing, old.carrier), (wide, small));
        let up = widen(old);
        assert_eq!(bits(up.timing, up.carrier), (wide, small));
        let down = narrow(up);
        assert_eq!(down.number, 0);
        let down = down.receiver;
        assert_eq!(bits(down.timing, down.carrier), (wide, small));
        assert_eq!(fields(&down), fields(&up));
    }
}

#[test]
fn a_program_in_c_converts() {
    let source = r#"
        #include <inttypes.h>
        #include <stdio.h>
        #include <string.h>
        #include "train_receiver.h"
        int main(void)
        {
            trr_timing_values timing = {4.0, TRR_GARDNER, 0.01, 1.0, 0.01, 3.0};
            trr_carrier_values carrier = {0.02, 1.0, 0.05};
            trr_receiver receiver = trr_receiver_set_up(TRR_QPSK, timing, carrier).receiver;
            unsigned char stored[sizeof(trr_receiver_32)];
            for (int more = 0; more < 3; more++) {
                receiver.count = UINT64_C(4294967294) + (uint64_t)more;
                trr_receiver_narrow_answer answer = trr_receiver_narrow(receiver);
                printf("%" PRIu32 " %" PRIu32 "\n", answer.number, answer.receiver.count);
                if (answer.number != TRR_TOO_LARGE) {
                    memcpy(stored, &answer.receiver, sizeof stored);
                }
            }
            trr_receiver_32 old;
            memcpy(&old, stored, sizeof old);
            printf("%" PRIu64 "\n", trr_receiver_widen(old).count);
            return 0;
        }
    "#;
    let expected = "0 4294967294\n0 4294967295\n100 0\n4294967295\n";
    assert_eq!(Program::of_text("conversion.c", source).printed(), expected);
}
