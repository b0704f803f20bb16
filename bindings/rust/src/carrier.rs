//! The carrier loop by itself. Labels are those of docs/SPECIFICATION.md.

use crate::constellation::Constellation;
use crate::ffi;
use crate::refusal::Refusal;
use crate::values::CarrierValues;

/// A carrier loop. Only [`set_up`](Carrier::set_up) makes one.
#[derive(Clone, Debug)]
pub struct Carrier {
    record: ffi::Carrier,
}

impl Carrier {
    /// Sets up a loop. Refused with the lowest number of 2, 3 and 4 that applies (C4).
    pub fn set_up(constellation: Constellation, values: CarrierValues) -> Result<Self, Refusal> {
        // SAFETY: a set-up takes any values.
        let answer = unsafe { ffi::trr_carrier_set_up(constellation.code(), values.raw()) };
        Refusal::check(answer.number)?;
        Ok(Carrier {
            record: answer.state,
        })
    }

    /// Makes the loop as it was just after its set-up (C7).
    pub fn reset(&mut self) {
        // SAFETY: the library has given the record, and nobody else writes it.
        self.record = unsafe { ffi::trr_carrier_reset(self.record) };
    }

    /// Sets the phase, in units of 2^-32 turn. The rest stays (C8).
    pub fn set_phase(&mut self, phase: u32) {
        // SAFETY: the library has given the record, and nobody else writes it.
        self.record = unsafe { ffi::trr_carrier_set_phase(self.record, phase) };
    }

    /// Sets the frequency, in cycles per symbol. The rest stays. The frequency is rounded to an f32; 0 is
    /// taken if it is NaN or below 1e-30 in size, and the nearer end if it lies beyond the limit (C9).
    pub fn set_frequency(&mut self, frequency: f64) {
        // SAFETY: the library has given the record, and nobody else writes it.
        self.record = unsafe { ffi::trr_carrier_set_frequency(self.record, frequency) };
    }

    /// Runs the loop over the input, complex samples, one for each symbol (strobes), removes the carrier
    /// and writes one output sample for each of them. Refused with [`Refusal::Odd`] where a length is odd,
    /// then with [`Refusal::Uneven`] where the lengths differ (C1); then the loop and the output stay as
    /// found (A7). It makes no difference how a recording is cut into calls (B2).
    pub fn run(&mut self, input: &[f32], output: &mut [f32]) -> Result<(), Refusal> {
        // SAFETY: the library has given the record, and nobody else writes it. The pointers and counts
        // are those of slices, which are never null; the borrows are exclusive where the library
        // writes, so that nothing overlaps.
        let number = unsafe {
            ffi::trr_carrier_run(
                &mut self.record,
                input.as_ptr(),
                input.len(),
                output.as_mut_ptr(),
                output.len(),
            )
        };
        Refusal::check(number)
    }

    /// Frequency, in cycles per symbol: the estimate of the carrier's offset (C21).
    #[must_use]
    pub fn frequency(&self) -> f64 {
        self.readings().frequency
    }

    /// Phase before the next symbol, in units of 2^-32 turn (C21).
    #[must_use]
    pub fn phase(&self) -> u32 {
        self.readings().phase
    }

    /// The smoothed lock measure (C20).
    #[must_use]
    pub fn lock_level(&self) -> f32 {
        self.readings().lock_level
    }

    /// Whether there is lock. A level above 0.5 sets lock, one below 0.3 clears it, and between the two it
    /// stays as it was (C20).
    #[must_use]
    pub fn locked(&self) -> bool {
        self.readings().locked
    }

    /// The constellation.
    #[must_use]
    pub fn constellation(&self) -> Constellation {
        Constellation::from_code(self.readings().constellation)
    }

    /// The values of the set-up.
    #[must_use]
    pub fn values(&self) -> CarrierValues {
        CarrierValues::from_raw(self.readings().values)
    }

    /// The record, to be read.
    #[must_use]
    pub fn record(&self) -> &ffi::Carrier {
        &self.record
    }

    fn readings(&self) -> ffi::CarrierReadings {
        // SAFETY: the library has given the record, and nobody else writes it.
        unsafe { ffi::trr_carrier_readings(self.record) }
    }
}
