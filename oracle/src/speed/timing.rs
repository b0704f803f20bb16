//! The timing loops, on real and on complex samples.

use std::f64::consts::FRAC_1_SQRT_2;
use std::hint::black_box;
use std::rc::Rc;

use train_receiver::ffi::{self, Progress};

use super::drive::{Loop, empty_round, round};
use super::signals::Source;
use super::table::Tables;
use crate::Fallback;
use crate::bits::Parts;
use crate::fields::state_line;
use crate::kernels::symbol_sync::{SymbolSync, SymbolSyncState, Ted};
use crate::runs::Values;
use crate::scale::records;
use crate::signal::NOISE;
use crate::timing;
use crate::types::C32;

/// Samples per symbol.
pub const PACE: f64 = 4.1;
/// The two detectors, and their names.
pub const DETECTORS: [(Ted, &str); 2] = [
    (Ted::Gardner, "Gardner"),
    (Ted::MuellerMuller, "Mueller-Müller"),
];

/// The complex signal: a noisy one at the pace of the set-up.
const COMPLEX: Source = Source {
    rows: "complex timing",
    points: 4,
    pace: PACE,
    held: 1,
    noise: NOISE,
    carrier: None,
};
/// The real signal: its points stand on the axis.
const REAL: Source = Source {
    rows: "real timing",
    points: 2,
    ..COMPLEX
};

/// The values of the set-up.
pub fn values(detector: Ted) -> Values {
    black_box(Values {
        sps: PACE,
        detector,
        bandwidth: 0.01,
        damping: FRAC_1_SQRT_2,
        deviation: 0.005,
        gain: 1.0,
    })
}

/// The same in words.
pub fn told() -> String {
    let values = values(Ted::Gardner);
    format!(
        "{} samples per symbol, loop bandwidth {}, damping {:.4}, maximum deviation {}, detector gain {}",
        values.sps, values.bandwidth, values.damping, values.deviation, values.gain
    )
}

/// The original's state after the set-up.
pub fn original<T: Parts>(detector: Ted) -> SymbolSyncState<T> {
    values(detector).set_up().expect("values in range")
}

/// The original's counts.
pub fn counts(progress: timing::Progress) -> Progress {
    let timing::Progress { consumed, produced } = progress;
    Progress { consumed, produced }
}

impl<T: Parts> Loop for SymbolSyncState<T>
where
    Fallback: SymbolSync<T>,
{
    type Sample = T;

    fn call(&mut self, input: &[T], output: &mut [T]) -> Progress {
        let done = Fallback.symbol_sync(self, input, output);
        counts(done.expect("no internal error"))
    }

    fn state(&self) -> String {
        state_line(self)
    }
}

impl Loop for ffi::Timing<f32> {
    type Sample = f32;

    fn call(&mut self, input: &[f32], output: &mut [f32]) -> Progress {
        let (from, to) = (input.as_ptr(), output.as_mut_ptr());
        // SAFETY: each pointer and count is a slice's, and the record is a set-up's.
        unsafe { ffi::trr_real_run(self, from, input.len(), to, output.len()) }
    }

    fn state(&self) -> String {
        state_line(&records::timing(self))
    }
}

impl Loop for ffi::Timing<ffi::C32> {
    type Sample = C32;

    fn call(&mut self, input: &[C32], output: &mut [C32]) -> Progress {
        let (from, to) = (input.as_ptr().cast(), output.as_mut_ptr().cast());
        let (given, places) = (2 * input.len(), 2 * output.len());
        // SAFETY: each pointer is a slice's and each count that of its parts, which are f32; the record
        // is a set-up's.
        let done = unsafe { ffi::trr_complex_run(self, from, given, to, places) };
        accepted(done)
    }

    fn state(&self) -> String {
        state_line(&records::timing(self))
    }
}

/// The counts of a call that is not refused.
pub fn accepted(counts: ffi::Counts) -> Progress {
    assert_eq!(counts.number, 0, "buffers that fit");
    Progress {
        consumed: counts.consumed,
        produced: counts.produced,
    }
}

/// The state that a set-up of the library gives.
fn made<T>(set_up: ffi::TimingSetUp<T>) -> ffi::Timing<T> {
    assert_eq!(set_up.number, 0, "values in range");
    set_up.state
}

fn real(detector: Ted) -> ffi::Timing<f32> {
    let values = records::timing_values(&values(detector), 0);
    // SAFETY: any values may be given.
    made(unsafe { ffi::trr_real_set_up(values) })
}

fn complex(detector: Ted) -> ffi::Timing<ffi::C32> {
    let values = records::timing_values(&values(detector), 0);
    // SAFETY: any values may be given.
    made(unsafe { ffi::trr_complex_set_up(values) })
}

/// Both kinds of samples, with both detectors.
pub fn rows(tables: &mut Tables) {
    let singles: Rc<[f32]> = REAL.recording(tables.samples);
    let pairs: Rc<[C32]> = COMPLEX.recording(tables.samples);
    for (ted, name) in DETECTORS {
        tables.row(format!("real timing, {name}"), REAL, |block| {
            let input = Rc::clone(&singles);
            Box::new(move || round(&input, block, original(ted), real(ted)))
        });
    }
    for (ted, name) in DETECTORS {
        tables.row(format!("complex timing, {name}"), COMPLEX, |block| {
            let input = Rc::clone(&pairs);
            Box::new(move || round(&input, block, original(ted), complex(ted)))
        });
    }
}

/// Empty calls of both kinds, with the first detector.
pub fn calls(tables: &mut Tables) {
    let [(ted, name), _] = DETECTORS;
    let pairs = move || empty_round(original(ted), complex(ted));
    let singles = move || empty_round(original(ted), real(ted));
    tables.call(format!("complex timing, {name}"), Box::new(pairs));
    tables.call(format!("real timing, {name}"), Box::new(singles));
}
