//! The flushes of frequency and level, at their edge.

use super::{CONSTELLATIONS, Recorder, Values};
use crate::floats::singles::nearer;
use crate::kernels::costas::{Costas, CostasConstellation, S8};
use crate::types::C32;

/// What is smaller is flushed.
const EDGE: f64 = 1e-30;
/// The samples of a block, two f32 each: as many as the replay's buffers hold.
const BLOCK: usize = 90;
/// No level takes more blocks to fall to 0.
const BLOCKS: usize = 100;

fn values(points: CostasConstellation) -> Values {
    Values {
        points,
        bandwidth: 0.2,
        damping: 0.7,
        offset: 0.25,
    }
}

pub fn record<K: Costas>(recorder: &mut Recorder<K>) {
    for points in CONSTELLATIONS {
        frequencies(recorder, points);
    }
    level(recorder);
}

/// Single samples from a fresh state, whose errors bring the frequency to the edge and near it, from
/// both sides of 0.
fn frequencies<K: Costas>(recorder: &mut Recorder<K>, points: CostasConstellation) {
    let mut state = recorder.opened(values(points));
    let error = EDGE / f64::from(state.ki);
    for size in around(size(points, error)) {
        for sample in samples(points, size) {
            recorder.reset(&mut state);
            recorder.even_run(&mut state, &[sample]);
        }
    }
}

/// A size and its neighbours, of both signs, and a few farther away.
fn around(size: f32) -> Vec<f32> {
    let mut list = nearer(size).to_vec();
    list.extend([0.2, 0.6, 0.9, 1.1, 2.0, 5.0].map(|k| k * size));
    list
}

/// The size of a sample that has this error at phase 0.
fn size(points: CostasConstellation, error: f64) -> f32 {
    let size = match points {
        CostasConstellation::Bpsk => error.sqrt(),
        CostasConstellation::Qpsk => error,
        _ => error / f64::from(S8),
    };
    size as f32
}

/// Two samples of this size, one with that error and one with its opposite.
fn samples(points: CostasConstellation, size: f32) -> [C32; 2] {
    let (re, im) = match points {
        CostasConstellation::Bpsk => (size, [size, -size]),
        CostasConstellation::Qpsk => (2.0 * size, [size, -size]),
        // On the axis, and so near to it that the error is the same but for its sign.
        _ => (size, [0.0, -f32::from_bits(1)]),
    };
    im.map(|im| C32::new(re, im))
}

/// A level that falls to 0. BPSK's measure is 0 on the diagonals, and the samples are so small that
/// phase and frequency stay.
fn level<K: Costas>(recorder: &mut Recorder<K>) {
    let small = 1e-15f32;
    let mut state = recorder.opened(values(CostasConstellation::Bpsk));
    recorder.even_run(&mut state, &[C32::new(small, small.next_down())]);
    let diagonal = [C32::new(small, small); BLOCK];
    let mut left = BLOCKS;
    while state.level != 0.0 {
        recorder.even_run(&mut state, &diagonal);
        left = left.checked_sub(1).expect("the level falls to 0");
    }
}
