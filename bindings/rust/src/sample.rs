//! The two sample types of timing, and which functions of the library belong to each.

use crate::ffi::{self, C32};
use sealed::{Functions, Readings, Reset, SetUp};

/// A sample that timing takes: `f32` or [`C32`]. No other type implements this.
pub trait Sample: Functions {}

impl Sample for f32 {}

impl Sample for C32 {}

mod sealed {
    use crate::ffi::{Timing, TimingReadings, TimingSetUp, TimingValues};
    use std::fmt::Debug;

    pub type SetUp<S> = unsafe extern "C" fn(TimingValues) -> TimingSetUp<S>;
    pub type Reset<S> = unsafe extern "C" fn(Timing<S>) -> Timing<S>;
    pub type Readings<S> = unsafe extern "C" fn(Timing<S>) -> TimingReadings;

    /// The functions of the library over states of this sample type.
    pub trait Functions: Copy + Debug {
        /// Takes any values.
        const SET_UP: SetUp<Self>;
        /// Requires a state that the library has given.
        const RESET: Reset<Self>;
        /// Requires a state that the library has given.
        const READINGS: Readings<Self>;
    }
}

impl Functions for f32 {
    const SET_UP: SetUp<f32> = ffi::trr_real_set_up;
    const RESET: Reset<f32> = ffi::trr_real_reset;
    const READINGS: Readings<f32> = ffi::trr_real_readings;
}

impl Functions for C32 {
    const SET_UP: SetUp<C32> = ffi::trr_complex_set_up;
    const RESET: Reset<C32> = ffi::trr_complex_reset;
    const READINGS: Readings<C32> = ffi::trr_complex_readings;
}
