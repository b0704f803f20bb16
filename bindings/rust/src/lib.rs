//! The train report receiver for Rust programs: symbol timing recovery and carrier recovery.
//!
//! [`Receiver`] does both. [`RealTiming`], [`ComplexTiming`] and [`Carrier`] are the loops by
//! themselves. [`symbol_number`] reads an output sample: its number, or `None`. [`Receiver32`] is a receiver
//! record as it was before, with a symbol count of 32 bits: it is there to be converted. [`ffi`] is the
//! static library as it is. Labels such as (T8) are those of docs/SPECIFICATION.md, which states the whole
//! behaviour.
//!
//! Buffers are slices of f32. A complex sample is a pair of f32, the real part before the imaginary one,
//! so a complex buffer of n samples has the length 2 n. The counts of [`Progress`] count samples (A1). Any
//! buffer may be empty (A8).
//!
//! The library asks one thing of a caller: a record must come from a set-up, a reset, a setter or a run of it, or
//! be converted from such a record, be it this library's or the earlier one's (A9, R23). A conversion of
//! anything else gives nothing that may be used. The safe Rust types hold to this by themselves (L8), unless a
//! caller vouches wrongly for a stored record ([`Receiver::from_record`] and [`Receiver32::from_record`],
//! unsafe). The crate and the library must be of one version.
//!
//! ```
//! use train_receiver::{CarrierValues, Constellation, Detector, Receiver, Refusal, TimingValues};
//!
//! let timing = TimingValues {
//!     sps: 4.0,
//!     ted: Detector::Gardner,
//!     loop_bw: 0.01,
//!     damping: 1.0,
//!     max_deviation: 0.01,
//!     ted_gain: 3.0,
//! };
//! let carrier = CarrierValues {
//!     loop_bw: 0.02,
//!     damping: 1.0,
//!     max_offset: 0.05,
//! };
//! let mut receiver = Receiver::set_up(Constellation::Qpsk, timing, carrier)?;
//! let (mut strobes, mut output) = ([0.0; 8], [0.0; 8]);
//! let progress = receiver.receive(&[1.0; 16], &mut strobes, &mut output)?;
//! assert_eq!((progress.consumed, progress.produced), (8, 2));
//! # Ok::<(), Refusal>(())
//! ```

mod carrier;
mod constellation;
mod conversion;
mod detector;
pub mod ffi;
mod receiver;
mod refusal;
mod sample;
mod timing;
mod values;

pub use carrier::Carrier;
pub use constellation::{Constellation, symbol_number};
pub use conversion::{Receiver32, TooLarge};
pub use detector::Detector;
pub use ffi::{C32, Progress};
pub use receiver::Receiver;
pub use refusal::Refusal;
pub use sample::Sample;
pub use timing::{ComplexTiming, RealTiming, Timing};
pub use values::{CarrierValues, TimingValues};
