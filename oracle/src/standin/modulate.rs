//! A stand-in for the original's `kernels::modulate`. The modulators stand in a file that is
//! built for its phase step; they are never run.

use crate::error::Result;
use crate::types::ComplexSample;

/// A modulator's state: turns of phase for one unit, and the phase.
pub struct FmModState {
    scale: f64,
    phase: u32,
}

impl FmModState {
    /// The scale, and the phase to go on from.
    pub fn parts_mut(&mut self) -> (f64, &mut u32) {
        (self.scale, &mut self.phase)
    }
}

/// Frequency modulation.
pub trait FmMod<T: ComplexSample> {
    /// Modulates each sample.
    fn fm_mod(&self, s: &mut FmModState, input: &[T::Real], output: &mut [T]) -> Result<()>;
}

/// Only named in a `use`.
pub trait AmMod {}

/// Only named in a `use`.
pub fn check_am_params() {}
