//! The receiver: both loops and a symbol count. Labels are those of docs/SPECIFICATION.md.

use crate::constellation::Constellation;
use crate::ffi::{self, Progress};
use crate::refusal::Refusal;
use crate::values::{CarrierValues, TimingValues};

/// A receiver. Only [`set_up`](Receiver::set_up), [`set_up_unnamed`](Receiver::set_up_unnamed), the conversion
/// of a [`Receiver32`](crate::Receiver32) and [`from_record`](Receiver::from_record) make one.
#[derive(Clone, Debug)]
pub struct Receiver {
    record: ffi::Receiver,
}

impl Receiver {
    /// Sets up a receiver. Refused with a number of 1 to 6. Timing's values are checked first (1 to 6),
    /// then the carrier's (2 to 4), so that any wrong value of timing's is answered before one of the
    /// carrier's (R4).
    pub fn set_up(
        constellation: Constellation,
        timing: TimingValues,
        carrier: CarrierValues,
    ) -> Result<Self, Refusal> {
        // SAFETY: a set-up takes any values.
        let answer =
            unsafe { ffi::trr_receiver_set_up(constellation.code(), timing.raw(), carrier.raw()) };
        Receiver::ready(answer)
    }

    /// The same without a constellation: it is BPSK then (R3).
    pub fn set_up_unnamed(timing: TimingValues, carrier: CarrierValues) -> Result<Self, Refusal> {
        // SAFETY: a set-up takes any values.
        let answer = unsafe { ffi::trr_receiver_set_up_unnamed(timing.raw(), carrier.raw()) };
        Receiver::ready(answer)
    }

    fn ready(answer: ffi::ReceiverSetUp) -> Result<Self, Refusal> {
        Refusal::check(answer.number)?;
        // SAFETY: the set-up is not refused, so that it has given a record (L3).
        Ok(unsafe { Receiver::from_record(answer.receiver) })
    }

    /// Takes a record, such as one that a program of this library stored. One that a program of the earlier
    /// library stored goes to [`Receiver32::from_record`](crate::Receiver32::from_record): the bytes do not
    /// tell which of the two they are.
    ///
    /// # Safety
    ///
    /// The record must be one that this library has given, or be converted from such a one, be it this library's
    /// or the earlier one's (A9), field by field. What stands in the bytes between its fields does not matter.
    #[must_use]
    pub unsafe fn from_record(record: ffi::Receiver) -> Self {
        Receiver { record }
    }

    /// Makes the receiver as it was just after its set-up: both loops are fresh, and the symbol count is 0
    /// (R7).
    pub fn reset(&mut self) {
        // SAFETY: the library has given the record, and nobody else writes it.
        self.record = unsafe { ffi::trr_receiver_reset(self.record) };
    }

    /// Sets the carrier's phase, in units of 2^-32 turn. The rest stays (R8).
    pub fn set_phase(&mut self, phase: u32) {
        // SAFETY: the library has given the record, and nobody else writes it.
        self.record = unsafe { ffi::trr_receiver_set_phase(self.record, phase) };
    }

    /// Receives complex samples. The timing loop makes strobes of the input and writes them to the strobe
    /// buffer. Then the carrier loop makes symbols of these strobes and writes them to the output (R1). The
    /// counts are those of timing: samples consumed, symbols produced (R5). Refused with [`Refusal::Odd`]
    /// where a length is odd, then with [`Refusal::Uneven`] where the strobe buffer and the output are not
    /// equally long (R10); then the receiver and both buffers stay as found (A7).
    ///
    /// The call ends where the output's capacity (places) is used up or where the next strobe needs more
    /// input (T9, T12). In the latter case all input is consumed. Places behind the last sample produced
    /// stay as found, in both buffers (A10). Hand again what was not consumed, in front of the next
    /// samples: then it makes no difference how a recording is cut into calls (B3).
    pub fn receive(
        &mut self,
        input: &[f32],
        strobes: &mut [f32],
        output: &mut [f32],
    ) -> Result<Progress, Refusal> {
        // SAFETY: the library has given the record, and nobody else writes it. The pointers and counts
        // are those of slices, which are never null; the borrows are exclusive where the library
        // writes, so that nothing overlaps.
        let counts = unsafe {
            ffi::trr_receiver_receive(
                &mut self.record,
                input.as_ptr(),
                input.len(),
                strobes.as_mut_ptr(),
                strobes.len(),
                output.as_mut_ptr(),
                output.len(),
            )
        };
        Refusal::progress(counts)
    }

    /// The record, to be read.
    #[must_use]
    pub fn record(&self) -> &ffi::Receiver {
        &self.record
    }
}

/// Readings (R9).
impl Receiver {
    /// Position of the next strobe in samples, counted from the first sample of the next call's input.
    /// It is negative while the strobe lies before that sample (T21).
    #[must_use]
    pub fn next_strobe(&self) -> f64 {
        self.readings().timing.next_strobe
    }

    /// The tracked samples per symbol (pace): the estimate of how many samples a symbol has (T21).
    #[must_use]
    pub fn sps_estimate(&self) -> f64 {
        self.readings().timing.sps_estimate
    }

    /// The carrier's frequency, in cycles per symbol: the estimate of its offset (C21).
    #[must_use]
    pub fn frequency(&self) -> f64 {
        self.readings().carrier.frequency
    }

    /// The carrier's phase before the next symbol, in units of 2^-32 turn (C21).
    #[must_use]
    pub fn phase(&self) -> u32 {
        self.readings().carrier.phase
    }

    /// The smoothed lock measure (C20).
    #[must_use]
    pub fn lock_level(&self) -> f32 {
        self.readings().carrier.lock_level
    }

    /// Whether there is lock. A level above 0.5 sets lock, one below 0.3 clears it, and between the two it
    /// stays as it was (C20).
    #[must_use]
    pub fn locked(&self) -> bool {
        self.readings().carrier.locked
    }

    /// The constellation.
    #[must_use]
    pub fn constellation(&self) -> Constellation {
        Constellation::from_code(self.readings().carrier.constellation)
    }

    /// Symbols produced since the set-up or the last reset. From 18,446,744,073,709,551,615 on the count
    /// stays there (R18).
    #[must_use]
    pub fn count(&self) -> u64 {
        self.readings().count
    }

    /// The timing values of the set-up.
    #[must_use]
    pub fn timing_values(&self) -> TimingValues {
        TimingValues::from_raw(self.readings().timing.values)
    }

    /// The carrier values of the set-up.
    #[must_use]
    pub fn carrier_values(&self) -> CarrierValues {
        CarrierValues::from_raw(self.readings().carrier.values)
    }

    fn readings(&self) -> ffi::ReceiverReadings {
        // SAFETY: the library has given the record, and nobody else writes it.
        unsafe { ffi::trr_receiver_readings(self.record) }
    }
}
