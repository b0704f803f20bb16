//! A stand-in for the original's error module: the cases that the built files name.

/// Why a call failed.
#[derive(Clone, Debug, PartialEq, Eq)]
pub enum Error {
    /// A set-up value out of its range.
    InvalidParameter(&'static str),
    /// A sample type that a kernel does not take.
    Unsupported(&'static str),
    /// Two buffers whose lengths do not fit.
    LengthMismatch {
        /// The length asked for.
        expected: usize,
        /// The length given.
        got: usize,
    },
    /// A case that cannot occur (A11 of docs/SPECIFICATION.md).
    Internal(&'static str),
}

/// An answer or the reason why there is none.
pub type Result<T> = core::result::Result<T, Error>;
