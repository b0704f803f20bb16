//! The carrier loop, under each constellation, and under 8-PSK on signals whose octants are predicted.

use std::f64::consts::FRAC_1_SQRT_2;
use std::hint::black_box;
use std::rc::Rc;

use train_receiver::ffi::{self, Progress};

use super::drive::{Loop, empty_round, round};
use super::signals::Source;
use super::table::Tables;
use crate::Fallback;
use crate::carrier_runs::Values;
use crate::fields::state_line;
use crate::kernels::costas::{Costas, CostasConstellation, CostasState};
use crate::scale::records;
use crate::signal::NOISE;
use crate::types::C32;

/// The signal's carrier: the turns that it begins at, and what it grows by at each symbol.
pub const CARRIER: [f64; 2] = [0.03, 0.001];
/// The constellations, and their names.
pub const CONSTELLATIONS: [(CostasConstellation, &str); 3] = [
    (CostasConstellation::Bpsk, "BPSK"),
    (CostasConstellation::Qpsk, "QPSK"),
    (CostasConstellation::Psk8, "8-PSK"),
];

/// The symbols that a point of the slow signal is held for. With more the original is hardly quicker.
const HELD: usize = 64;
/// Signals on which the original's branches under 8-PSK are predicted.
const FORETOLD: [Source; 2] = [
    Source {
        rows: "carrier, 8-PSK, unmodulated",
        noise: 0.0,
        ..random(1)
    },
    Source {
        rows: "carrier, 8-PSK, slow QPSK",
        held: HELD,
        ..random(4)
    },
];

/// A noisy signal of random points on the carrier, one a sample.
const fn random(points: usize) -> Source {
    Source {
        rows: "carrier",
        points,
        pace: 1.0,
        held: 1,
        noise: NOISE,
        carrier: Some(CARRIER),
    }
}

/// The points of a constellation.
pub fn order(points: CostasConstellation) -> usize {
    points.psk_order().expect("a constellation on the circle") as usize
}

/// The values of the set-up.
pub fn values(points: CostasConstellation) -> Values {
    black_box(Values {
        points,
        bandwidth: 0.02,
        damping: FRAC_1_SQRT_2,
        offset: 0.05,
    })
}

/// The same in words.
pub fn told() -> String {
    let values = values(CostasConstellation::Qpsk);
    format!(
        "loop bandwidth {}, damping {:.4}, maximum offset {}",
        values.bandwidth, values.damping, values.offset
    )
}

/// The original's state after the set-up.
pub fn original(points: CostasConstellation) -> CostasState {
    values(points).set_up().expect("values in range")
}

/// A call consumes every sample and writes as many.
fn all(samples: usize) -> Progress {
    Progress {
        consumed: samples,
        produced: samples,
    }
}

impl Loop for CostasState {
    type Sample = C32;

    fn call(&mut self, input: &[C32], output: &mut [C32]) -> Progress {
        let done = Fallback.costas(self, input, output);
        done.expect("as many places as samples");
        all(input.len())
    }

    fn state(&self) -> String {
        state_line(self)
    }
}

impl Loop for ffi::Carrier {
    type Sample = C32;

    fn call(&mut self, input: &[C32], output: &mut [C32]) -> Progress {
        let (from, to) = (input.as_ptr().cast(), output.as_mut_ptr().cast());
        let (given, places) = (2 * input.len(), 2 * output.len());
        // SAFETY: each pointer is a slice's and each count that of its parts, which are f32; the record
        // is a set-up's.
        let number = unsafe { ffi::trr_carrier_run(self, from, given, to, places) };
        assert_eq!(number, 0, "as many places as samples");
        all(input.len())
    }

    fn state(&self) -> String {
        state_line(&records::carrier(self))
    }
}

fn ported(points: CostasConstellation) -> ffi::Carrier {
    let values = records::carrier_values(&values(points));
    let code = records::constellation(points, 0);
    // SAFETY: any values may be given.
    let made = unsafe { ffi::trr_carrier_set_up(code, values) };
    assert_eq!(made.number, 0, "values in range");
    made.state
}

/// Each constellation on random symbols of it, then 8-PSK on the other signals.
pub fn rows(tables: &mut Tables) {
    for (points, name) in CONSTELLATIONS {
        let source = random(order(points));
        row(tables, format!("carrier, {name}"), points, source);
    }
    for source in FORETOLD {
        let name = source.rows.to_string();
        row(tables, name, CostasConstellation::Psk8, source);
    }
}

/// A constellation on a signal.
fn row(tables: &mut Tables, name: String, points: CostasConstellation, source: Source) {
    let samples: Rc<[C32]> = source.recording(tables.samples);
    tables.row(name, source, |block| {
        let input = Rc::clone(&samples);
        Box::new(move || round(&input, block, original(points), ported(points)))
    });
}

/// Empty calls, under the second constellation.
pub fn calls(tables: &mut Tables) {
    let [_, (points, name), _] = CONSTELLATIONS;
    let run = move || empty_round(original(points), ported(points));
    tables.call(format!("carrier, {name}"), Box::new(run));
}
