//! The numbers of odd samples under each constellation.

use super::Recorder;
use crate::carrier_runs::{CONSTELLATIONS, PARTS};
use crate::play::Kernel;
use crate::types::C32;

/// Points on the axes and the diagonals, zeros of both signs, numbers of every size, infinities and NaN;
/// and the next points on each side of the diagonals and the axes.
pub fn record<K: Kernel>(recorder: &mut Recorder<K>) {
    let least = f32::from_bits(1);
    let one = 1f32;
    for points in CONSTELLATIONS {
        for re in PARTS {
            for im in PARTS {
                recorder.symbol(points, C32::new(re, im));
            }
        }
        for beside in [one.next_down(), one.next_up(), least] {
            for (re, im) in [
                (one, beside),
                (one, -beside),
                (-one, beside),
                (-one, -beside),
            ] {
                recorder.symbol(points, C32::new(re, im));
                recorder.symbol(points, C32::new(im, re));
            }
        }
    }
}
