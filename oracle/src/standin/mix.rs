//! A stand-in for the original's `kernels::mix`. The oscillator kernels stand in a file that is
//! built for its table look-up; they are never run.

use crate::error::Result;

/// An oscillator: a phase and what it grows by.
pub struct Nco {
    phase: u32,
    increment: u32,
}

impl Nco {
    /// The phase of the next sample.
    pub fn phase(&self) -> u32 {
        self.phase
    }

    /// What the phase grows by at each sample.
    pub fn increment(&self) -> u32 {
        self.increment
    }

    /// Goes on by this many samples.
    pub fn advance(&mut self, samples: usize) {
        let grown = self.increment.wrapping_mul(samples as u32);
        self.phase = self.phase.wrapping_add(grown);
    }
}

/// Turns samples by an oscillator.
pub trait Rotate<T> {
    /// Turns each sample.
    fn rotate(&self, nco: &mut Nco, input: &[T], output: &mut [T]) -> Result<()>;
}

/// Writes an oscillator's samples.
pub trait Oscillate<T> {
    /// Writes a multiple of the oscillator.
    fn oscillate(&self, nco: &mut Nco, harmonic: u32, out: &mut [T]) -> Result<()>;
}

/// Accepts every multiple: never run.
pub fn check_harmonic(_harmonic: u32) -> Result<()> {
    Ok(())
}
