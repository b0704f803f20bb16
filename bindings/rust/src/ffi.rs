//! The static library as it is: its records with their layout, and its functions.
//!
//! `crates/train_receiver/src` has the contract of each function. A slice of f32 goes as a pointer and
//! a count. Labels are those of docs/SPECIFICATION.md.
//!
//! What every caller must hold to:
//!
//! - A record must come from a set-up, a reset, a setter or a run of the library, or be converted from such a
//!   record, be it this library's or the earlier one's (A9, R23). Nobody else writes it. A conversion of
//!   anything else gives nothing that may be used. A refused set-up gives no record, and neither does a
//!   conversion that is too large: the zeros in its place must not be used (L3, L13), and converted up they
//!   are no record either. Readings and conversions themselves ask less: any record whose truth values are
//!   0 or 1.
//! - No pointer is null, even where the count is 0. The record and the buffers of one call do not
//!   overlap.
//! - Counts of buffers are counts of f32, two for a complex sample. `consumed` and `produced` count samples
//!   (A1).
//!
//! A code other than the named ones reads as the last one (L4). Padding bytes are no part of a record:
//! compare records field by field.
//!
//! A reset or a setter answers the new record, and the one that is handed in stays as it was. So an answer
//! must be used:
//!
//! ```
//! #![deny(unused_must_use)]
//! use train_receiver::ffi::{Carrier, trr_carrier_reset};
//! unsafe fn again(x: Carrier) -> Carrier {
//!     // SAFETY: the caller hands in a record that the library has given.
//!     unsafe { trr_carrier_reset(x) }
//! }
//! ```
//!
//! ```compile_fail
//! #![deny(unused_must_use)]
//! use train_receiver::ffi::{Carrier, trr_carrier_reset};
//! unsafe fn again(x: Carrier) -> Carrier {
//!     // SAFETY: the caller hands in a record that the library has given.
//!     unsafe { trr_carrier_reset(x) };
//!     x
//! }
//! ```

/// What `trr_symbol_number` answers where a symbol has no number (L11).
pub const NO_SYMBOL: usize = 255;

/// What `trr_receiver_narrow` answers where the symbol count does not fit into 32 bits (L13). It is no
/// refusal's number.
pub const TOO_LARGE: u32 = 100;

/// A complex sample: the real part, then the imaginary one (A1).
#[derive(Clone, Copy, Debug)]
#[repr(C)]
pub struct C32 {
    /// Real part.
    pub re: f32,
    /// Imaginary part.
    pub im: f32,
}

/// The counts of a call, in samples.
#[derive(Clone, Copy, Debug, PartialEq, Eq)]
#[must_use = "what was not consumed must be handed again"]
#[repr(C)]
pub struct Progress {
    /// Input samples consumed. The next call's input begins with the first one that is not.
    pub consumed: usize,
    /// Output samples produced, at the front of the output.
    pub produced: usize,
}

/// What a call answers: 0 if it is done, else the number of its refusal (A2); and the counts, in samples.
#[derive(Clone, Copy, Debug, PartialEq, Eq)]
#[repr(C)]
pub struct Counts {
    /// 0 if the call is done, else the number of its refusal, 1 to 8 (E1 to E8).
    pub number: u32,
    /// Input samples consumed; 0 where the call is refused.
    pub consumed: usize,
    /// Output samples produced; 0 where the call is refused.
    pub produced: usize,
}

/// What a timing loop is set up with (T2).
#[derive(Clone, Copy, Debug)]
#[repr(C)]
pub struct TimingValues {
    /// Samples per symbol (pace).
    pub sps: f64,
    /// 0 Gardner, 1 Mueller-Müller.
    pub ted: u32,
    /// Loop bandwidth (width), as a fraction of the symbol rate.
    pub loop_bw: f64,
    /// Damping.
    pub damping: f64,
    /// Maximum deviation (pull) of the tracked samples per symbol from `sps`, as a fraction of `sps`.
    pub max_deviation: f64,
    /// Detector gain (slope), in detector output per symbol.
    pub ted_gain: f64,
}

/// What a carrier loop is set up with, but for its constellation (C2).
#[derive(Clone, Copy, Debug)]
#[repr(C)]
pub struct CarrierValues {
    /// Loop bandwidth (width), as a fraction of the symbol rate.
    pub loop_bw: f64,
    /// Damping.
    pub damping: f64,
    /// Maximum frequency offset (pull), in cycles per symbol.
    pub max_offset: f64,
}

/// The parameters of a timing state: the values of the set-up, and what follows from them (T3).
#[derive(Clone, Copy, Debug)]
#[repr(C)]
pub struct TimingParams {
    /// Samples per symbol (pace).
    pub sps: f64,
    /// 0 Gardner, 1 Mueller-Müller.
    pub ted: u32,
    /// Loop bandwidth (width), as a fraction of the symbol rate.
    pub loop_bw: f64,
    /// Damping.
    pub damping: f64,
    /// Maximum deviation (pull) of the tracked samples per symbol from `sps`, as a fraction of `sps`.
    pub max_deviation: f64,
    /// Detector gain (slope), in detector output per symbol.
    pub ted_gain: f64,
    /// Proportional gain, in samples per unit of the detector's output.
    pub kp: f64,
    /// Integral gain, in samples per unit of the detector's output.
    pub ki: f64,
    /// Limit of the integrator, in samples.
    pub lim: f64,
}

/// The clock of a timing state (T5, T22).
#[derive(Clone, Copy, Debug)]
#[repr(C)]
pub struct Clock {
    /// Position of the next strobe, in samples from the first one of the history: the whole part.
    pub i: usize,
    /// The fraction of that position, from 0 up to but not including 1.
    pub mu: f64,
    /// Spacing of the strobes, in samples: the tracked samples per symbol (pace).
    pub omega: f64,
    /// Integrator of the loop filter, in samples.
    pub integ: f64,
}

/// The last three samples, oldest first.
#[derive(Clone, Copy, Debug)]
#[repr(C)]
pub struct Hist<T> {
    /// The oldest.
    pub a: T,
    /// The one between.
    pub b: T,
    /// The newest.
    pub c: T,
}

/// What a timing run changes.
#[derive(Clone, Copy, Debug)]
#[repr(C)]
pub struct TimingTrack<T> {
    /// The clock.
    pub clock: Clock,
    /// The previous strobe.
    pub y_prev: T,
    /// The previous decision.
    pub d_prev: T,
    /// The midpoint sample (middle) between the last strobe and the next, where `mid_ready`.
    pub mid: T,
    /// Whether a midpoint sample is held.
    pub mid_ready: bool,
    /// Whether there was a strobe since the set-up or the last reset.
    pub started: bool,
}

/// A timing state (T5).
#[derive(Clone, Copy, Debug)]
#[repr(C)]
pub struct Timing<T> {
    /// The values of the set-up, and what follows from them.
    pub params: TimingParams,
    /// The history.
    pub hist: Hist<T>,
    /// What a run changes.
    pub track: TimingTrack<T>,
}

/// The answer of a timing set-up. Where the number is not 0 there is no state, only zeros (L3).
#[derive(Clone, Copy, Debug)]
#[repr(C)]
pub struct TimingSetUp<T> {
    /// 0 if the set-up is done, else the number of its refusal, 1 to 6 (E1 to E6).
    pub number: u32,
    /// The state.
    pub state: Timing<T>,
}

/// What a timing state tells of itself.
#[derive(Clone, Copy, Debug)]
#[repr(C)]
pub struct TimingReadings {
    /// The values of the set-up.
    pub values: TimingValues,
    /// Position of the next strobe in samples, from the first one of the next call's input (T21).
    pub next_strobe: f64,
    /// The tracked samples per symbol (pace): the estimate of how many samples a symbol has (T21).
    pub sps_estimate: f64,
}

/// The parameters of a carrier state: the values of the set-up, and what follows from them (C3, C5).
#[derive(Clone, Copy, Debug)]
#[repr(C)]
pub struct CarrierParams {
    /// Loop bandwidth (width), as a fraction of the symbol rate.
    pub loop_bw: f64,
    /// Damping.
    pub damping: f64,
    /// Maximum frequency offset (pull), in cycles per symbol, as it was given.
    pub max_offset: f64,
    /// Proportional gain, in cycles per symbol per unit of the detector's output.
    pub kp: f32,
    /// Integral gain, in cycles per symbol per unit of the detector's output.
    pub ki: f32,
    /// Limit of the frequency, in cycles per symbol.
    pub max: f32,
}

/// The oscillator (C6).
#[derive(Clone, Copy, Debug)]
#[repr(C)]
pub struct Nco {
    /// Phase before the next symbol, in units of 2^-32 turn.
    pub phase: u32,
    /// Frequency, in cycles per symbol.
    pub freq: f32,
}

/// The lock detector (C20).
#[derive(Clone, Copy, Debug)]
#[repr(C)]
pub struct Lock {
    /// The smoothed lock measure.
    pub level: f32,
    /// Whether there is lock.
    pub locked: bool,
}

/// What a carrier run changes.
#[derive(Clone, Copy, Debug)]
#[repr(C)]
pub struct CarrierTrack {
    /// The oscillator.
    pub nco: Nco,
    /// The lock detector.
    pub lock: Lock,
}

/// A carrier state (C6).
#[derive(Clone, Copy, Debug)]
#[repr(C)]
pub struct Carrier {
    /// 0 BPSK, 1 QPSK, 2 8-PSK.
    pub constellation: u32,
    /// The values of the set-up, and what follows from them.
    pub params: CarrierParams,
    /// What a run changes.
    pub track: CarrierTrack,
}

/// The answer of a carrier set-up. Where the number is not 0 there is no state, only zeros (L3).
#[derive(Clone, Copy, Debug)]
#[repr(C)]
pub struct CarrierSetUp {
    /// 0 if the set-up is done, else the number of its refusal, 2, 3 or 4 (E2 to E4).
    pub number: u32,
    /// The state.
    pub state: Carrier,
}

/// What a carrier state tells of itself (C21).
#[derive(Clone, Copy, Debug)]
#[repr(C)]
pub struct CarrierReadings {
    /// 0 BPSK, 1 QPSK, 2 8-PSK.
    pub constellation: u32,
    /// The values of the set-up.
    pub values: CarrierValues,
    /// Frequency, in cycles per symbol.
    pub frequency: f64,
    /// Phase before the next symbol, in units of 2^-32 turn.
    pub phase: u32,
    /// The smoothed lock measure.
    pub lock_level: f32,
    /// Whether there is lock.
    pub locked: bool,
}

/// The receiver record (R2).
#[derive(Clone, Copy, Debug)]
#[repr(C)]
pub struct Receiver {
    /// The timing loop.
    pub timing: Timing<C32>,
    /// The carrier loop.
    pub carrier: Carrier,
    /// Symbols produced since the set-up or the last reset, at most 18,446,744,073,709,551,615 (R18).
    pub count: u64,
}

/// The answer of a receiver's set-up. Where the number is not 0 there is no receiver, only zeros (L3).
#[derive(Clone, Copy, Debug)]
#[repr(C)]
pub struct ReceiverSetUp {
    /// 0 if the set-up is done, else the number of its refusal, 1 to 6 (E1 to E6).
    pub number: u32,
    /// The receiver.
    pub receiver: Receiver,
}

/// What a receiver tells of itself (R9).
#[derive(Clone, Copy, Debug)]
#[repr(C)]
pub struct ReceiverReadings {
    /// What the timing loop tells.
    pub timing: TimingReadings,
    /// What the carrier loop tells.
    pub carrier: CarrierReadings,
    /// Symbols produced since the set-up or the last reset, at most 18,446,744,073,709,551,615 (R18).
    pub count: u64,
}

/// The receiver record as it was before, with a symbol count of 32 bits (R19, L12). The bytes of a record that
/// a program of the earlier library stored are those of this one. It is as large as [`Receiver`], and the
/// count has the same offset: bytes do not tell which of the two they are.
#[derive(Clone, Copy, Debug)]
#[repr(C)]
pub struct Receiver32 {
    /// The timing loop.
    pub timing: Timing<C32>,
    /// The carrier loop.
    pub carrier: Carrier,
    /// Symbols produced since the set-up or the last reset, at most 4,294,967,295 (R19).
    pub count: u32,
}

/// The answer of a conversion down. Where the number is not 0 there is no record, only zeros (L13).
#[derive(Clone, Copy, Debug)]
#[repr(C)]
pub struct ReceiverNarrowed {
    /// 0 if the receiver is converted, else [`TOO_LARGE`].
    pub number: u32,
    /// The record.
    pub receiver: Receiver32,
}

unsafe extern "C" {
    // Timing, real samples.

    /// Sets up a loop over real samples. Numbers: 0, and 1 to 6.
    #[must_use]
    pub fn trr_real_set_up(v: TimingValues) -> TimingSetUp<f32>;
    /// The state as it was just after its set-up.
    #[must_use = "the record that is handed in stays as it was"]
    pub fn trr_real_reset(x: Timing<f32>) -> Timing<f32>;
    /// What the state tells of itself.
    #[must_use]
    pub fn trr_real_readings(x: Timing<f32>) -> TimingReadings;
    /// One run over real samples. It is never refused.
    #[must_use = "the answer says whether the call is done and what it consumed"]
    pub fn trr_real_run(
        x: *mut Timing<f32>,
        input: *const f32,
        input_len: usize,
        output: *mut f32,
        output_len: usize,
    ) -> Progress;

    // Timing, complex samples.

    /// Sets up a loop over complex samples. Numbers: 0, and 1 to 6.
    #[must_use]
    pub fn trr_complex_set_up(v: TimingValues) -> TimingSetUp<C32>;
    /// The state as it was just after its set-up.
    #[must_use = "the record that is handed in stays as it was"]
    pub fn trr_complex_reset(x: Timing<C32>) -> Timing<C32>;
    /// What the state tells of itself.
    #[must_use]
    pub fn trr_complex_readings(x: Timing<C32>) -> TimingReadings;
    /// One run over complex samples. Numbers: 0 and 8.
    #[must_use = "the answer says whether the call is done and what it consumed"]
    pub fn trr_complex_run(
        x: *mut Timing<C32>,
        input: *const f32,
        input_len: usize,
        output: *mut f32,
        output_len: usize,
    ) -> Counts;

    // The carrier.

    /// Sets up a carrier loop. Numbers: 0, 2, 3 and 4.
    #[must_use]
    pub fn trr_carrier_set_up(constellation: u32, v: CarrierValues) -> CarrierSetUp;
    /// The state as it was just after its set-up.
    #[must_use = "the record that is handed in stays as it was"]
    pub fn trr_carrier_reset(x: Carrier) -> Carrier;
    /// The state with this phase, in units of 2^-32 turn.
    #[must_use = "the record that is handed in stays as it was"]
    pub fn trr_carrier_set_phase(x: Carrier, phase: u32) -> Carrier;
    /// The state with this frequency, in cycles per symbol: rounded to an f32, 0 if it is NaN or below 1e-30
    /// in size, the nearer end if it lies beyond the limit (C9).
    #[must_use = "the record that is handed in stays as it was"]
    pub fn trr_carrier_set_frequency(x: Carrier, freq: f64) -> Carrier;
    /// What the state tells of itself.
    #[must_use]
    pub fn trr_carrier_readings(x: Carrier) -> CarrierReadings;
    /// One run: an output sample for each input sample. Numbers: 0, 7 and 8.
    #[must_use = "the answer says whether the call is done and what it consumed"]
    pub fn trr_carrier_run(
        x: *mut Carrier,
        input: *const f32,
        input_len: usize,
        output: *mut f32,
        output_len: usize,
    ) -> u32;

    // The receiver.

    /// Sets up a receiver. Numbers: 0, and 1 to 6.
    #[must_use]
    pub fn trr_receiver_set_up(
        constellation: u32,
        t: TimingValues,
        c: CarrierValues,
    ) -> ReceiverSetUp;
    /// The same without a constellation: it is BPSK then (R3).
    #[must_use]
    pub fn trr_receiver_set_up_unnamed(t: TimingValues, c: CarrierValues) -> ReceiverSetUp;
    /// The receiver as it was just after its set-up.
    #[must_use = "the record that is handed in stays as it was"]
    pub fn trr_receiver_reset(x: Receiver) -> Receiver;
    /// The receiver with this phase of the carrier, in units of 2^-32 turn.
    #[must_use = "the record that is handed in stays as it was"]
    pub fn trr_receiver_set_phase(x: Receiver, phase: u32) -> Receiver;
    /// What the receiver tells of itself.
    #[must_use]
    pub fn trr_receiver_readings(x: Receiver) -> ReceiverReadings;
    /// One call: the timing loop writes strobes to the strobe buffer, the carrier loop makes the output of
    /// them (R1). Numbers: 0, 7 and 8 (R10).
    #[must_use = "the answer says whether the call is done and what it consumed"]
    pub fn trr_receiver_receive(
        x: *mut Receiver,
        input: *const f32,
        input_len: usize,
        strobes: *mut f32,
        strobes_len: usize,
        output: *mut f32,
        output_len: usize,
    ) -> Counts;
    /// The symbol number of an output sample (R11 to R13), or [`NO_SYMBOL`] (R16, L11).
    #[must_use]
    pub fn trr_symbol_number(constellation: u32, re: f32, im: f32) -> usize;

    // Earlier records.

    /// The receiver of an earlier record, with its count and every other field as it is (L12). Every record
    /// converts (R20).
    #[must_use = "the record that is handed in stays as it was"]
    pub fn trr_receiver_widen(x: Receiver32) -> Receiver;
    /// The earlier record of a receiver, with its count and every other field as it is (L13). Numbers: 0, and
    /// [`TOO_LARGE`] where the count is above 4,294,967,295 (R21).
    #[must_use = "the record that is handed in stays as it was"]
    pub fn trr_receiver_narrow(x: Receiver) -> ReceiverNarrowed;
}
