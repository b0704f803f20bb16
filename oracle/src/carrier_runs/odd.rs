//! One sample from a fresh state, for every pair of odd parts. At phase 0 the cosine is 1 and the sine
//! 0, so that the output is the sample, but for a zero's sign and beside an infinite part.

use super::{Recorder, Values};
use crate::kernels::costas::{Costas, CostasConstellation};
use crate::types::C32;

/// Zeros and ones of both signs, so that there are points on each axis and each diagonal; numbers
/// whose squares or fourth powers vanish or overflow, the largest with a vanishing square and the
/// least with an overflowing one among them; infinities and NaN.
pub const PARTS: [f32; 15] = [
    0.0,
    -0.0,
    1.0,
    -1.0,
    f32::from_bits(1),
    -f32::from_bits(1),
    TWO_TO_MINUS_75,
    1e-20,
    1e19,
    -1e19,
    1e38,
    TWO_TO_64,
    f32::INFINITY,
    f32::NEG_INFINITY,
    f32::NAN,
];

/// Its square is half of the least subnormal number, and rounds to zero.
const TWO_TO_MINUS_75: f32 = 1.0 / (1u128 << 75) as f32;
/// Its square is just too large.
const TWO_TO_64: f32 = (1u128 << 64) as f32;

pub fn record<K: Costas>(recorder: &mut Recorder<K>, points: CostasConstellation) {
    let mut state = recorder.opened(Values {
        points,
        bandwidth: 0.2,
        damping: 0.7,
        offset: 0.25,
    });
    for re in PARTS {
        for im in PARTS {
            recorder.even_run(&mut state, &[C32::new(re, im)]);
            recorder.reset(&mut state);
        }
    }
}
