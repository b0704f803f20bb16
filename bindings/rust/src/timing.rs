//! The timing loop by itself, over real and over complex samples. Labels are those of docs/SPECIFICATION.md.

use crate::ffi::{self, C32, Progress};
use crate::refusal::Refusal;
use crate::sample::Sample;
use crate::values::TimingValues;

/// A timing loop. Only [`set_up`](Timing::set_up) makes one.
#[derive(Clone, Debug)]
pub struct Timing<S: Sample> {
    record: ffi::Timing<S>,
}

/// A timing loop over real samples.
pub type RealTiming = Timing<f32>;

/// A timing loop over complex samples.
pub type ComplexTiming = Timing<C32>;

impl<S: Sample> Timing<S> {
    /// Sets up a loop. Refused with the lowest number of 1 to 6 that applies (T4).
    pub fn set_up(values: TimingValues) -> Result<Self, Refusal> {
        // SAFETY: a set-up takes any values.
        let answer = unsafe { S::SET_UP(values.raw()) };
        Refusal::check(answer.number)?;
        Ok(Timing {
            record: answer.state,
        })
    }

    /// Makes the loop as it was just after its set-up (T6).
    pub fn reset(&mut self) {
        // SAFETY: the library has given the record, and nobody else writes it.
        self.record = unsafe { S::RESET(self.record) };
    }

    /// Position of the next strobe in samples, counted from the first sample of the next run's input.
    /// It is negative while the strobe lies before that sample (T21).
    #[must_use]
    pub fn next_strobe(&self) -> f64 {
        self.readings().next_strobe
    }

    /// The tracked samples per symbol (pace): the estimate of how many samples a symbol has (T21).
    #[must_use]
    pub fn sps_estimate(&self) -> f64 {
        self.readings().sps_estimate
    }

    /// The values of the set-up.
    #[must_use]
    pub fn values(&self) -> TimingValues {
        TimingValues::from_raw(self.readings().values)
    }

    /// The record, to be read.
    #[must_use]
    pub fn record(&self) -> &ffi::Timing<S> {
        &self.record
    }

    fn readings(&self) -> ffi::TimingReadings {
        // SAFETY: the library has given the record, and nobody else writes it.
        unsafe { S::READINGS(self.record) }
    }
}

impl RealTiming {
    /// Runs the loop over the input and writes the strobes, the samples at the symbols' instants, to the
    /// front of the output. A run on real samples is never refused (T1).
    ///
    /// The run ends where the output's capacity (places) is used up or where the next strobe needs more
    /// input (T9, T12). In the latter case all input is consumed. Output places behind the last strobe
    /// stay as found (A10). Hand again what was not consumed, in front of the next samples: then it makes
    /// no difference how a recording is cut into calls (B1).
    pub fn run(&mut self, input: &[f32], output: &mut [f32]) -> Progress {
        // SAFETY: the library has given the record, and nobody else writes it. The pointers and counts
        // are those of slices, which are never null; the borrows are exclusive where the library
        // writes, so that nothing overlaps.
        unsafe {
            ffi::trr_real_run(
                &mut self.record,
                input.as_ptr(),
                input.len(),
                output.as_mut_ptr(),
                output.len(),
            )
        }
    }
}

impl ComplexTiming {
    /// Runs the loop over the input and writes the strobes, the samples at the symbols' instants, to the
    /// front of the output. Refused with [`Refusal::Odd`] where a length is odd (T1); then the loop and the
    /// output stay as found (A7).
    ///
    /// The run ends where the output's capacity (places) is used up or where the next strobe needs more
    /// input (T9, T12). In the latter case all input is consumed. Output places behind the last strobe
    /// stay as found (A10). Hand again what was not consumed, in front of the next samples: then it makes
    /// no difference how a recording is cut into calls (B1).
    pub fn run(&mut self, input: &[f32], output: &mut [f32]) -> Result<Progress, Refusal> {
        // SAFETY: the library has given the record, and nobody else writes it. The pointers and counts
        // are those of slices, which are never null; the borrows are exclusive where the library
        // writes, so that nothing overlaps.
        let counts = unsafe {
            ffi::trr_complex_run(
                &mut self.record,
                input.as_ptr(),
                input.len(),
                output.as_mut_ptr(),
                output.len(),
            )
        };
        Refusal::progress(counts)
    }
}
