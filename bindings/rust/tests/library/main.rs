//! Tests against the static library.

mod blocks;
mod cases;
mod codes;
mod compiled;
mod conversions;
mod header;
mod layout;
mod missing_library;
mod refused_calls;
mod refused_set_ups;
mod stack;
mod states;

use std::fmt::Debug;
use train_receiver::{CarrierValues, Constellation, Detector, TimingValues};

const DETECTORS: [Detector; 2] = [Detector::Gardner, Detector::MuellerMuller];

const CONSTELLATIONS: [Constellation; 3] = [
    Constellation::Bpsk,
    Constellation::Qpsk,
    Constellation::Psk8,
];

/// Accepted values with this pace and detector.
fn timing(sps: f64, ted: Detector) -> TimingValues {
    TimingValues {
        sps,
        ted,
        loop_bw: 0.01,
        damping: 1.0,
        max_deviation: 0.005,
        ted_gain: 1.0,
    }
}

/// Accepted values.
fn carrier() -> CarrierValues {
    CarrierValues {
        loop_bw: 0.01,
        damping: 1.0,
        max_offset: 0.05,
    }
}

/// A record as text. Two records have the same text exactly if all their fields are the same, the sign
/// of a zero too. A NaN counts as the same as any other.
fn text(record: &impl Debug) -> String {
    format!("{record:?}")
}

/// The values of a record's fields as text, in their order and without the names.
fn fields(record: &impl Debug) -> Vec<String> {
    let value = |word: &&str| {
        let name = word.ends_with(':') || word.starts_with(char::is_uppercase);
        !word.is_empty() && (*word == "NaN" || !name)
    };
    let words = text(record);
    let words = words.split([' ', ',', '{', '}']).filter(value);
    words.map(String::from).collect()
}

/// Whether all fields of a record are zeros, of which there must be some.
fn zeros(record: &impl Debug) -> bool {
    let fields = fields(record);
    let zero = |field: &String| ["0", "0.0", "false"].contains(&field.as_str());
    fields.len() > 9 && fields.iter().all(zero)
}

/// Numbers from -1 to 1 that a small generator gives.
fn noise(length: usize) -> Vec<f32> {
    let mut state = 1u32;
    (0..length)
        .map(|_| {
            state = state.wrapping_mul(1_664_525).wrapping_add(1_013_904_223);
            (state >> 8) as f32 / 8_388_608.0 - 1.0
        })
        .collect()
}

/// So many f32, all different, with sign changes.
fn ramp(length: usize) -> Vec<f32> {
    (0..length)
        .map(|k| {
            let size = 1.0 + k as f32 / 8.0;
            if k % 3 == 0 { -size } else { size }
        })
        .collect()
}
