//! The receiver record as it was before, whose symbol count had 32 bits, and its conversion. Labels are those of
//! docs/SPECIFICATION.md.

use crate::ffi;
use crate::receiver::Receiver;
use std::error::Error;
use std::fmt;

/// A receiver record as it was before, with a symbol count of 32 bits (R19). It is there to be converted: it
/// receives nothing. [`Receiver::narrowed`] makes one of a receiver, and
/// [`from_record`](Receiver32::from_record) makes one of a record that a program of the earlier library
/// stored.
#[derive(Clone, Debug)]
pub struct Receiver32 {
    record: ffi::Receiver32,
}

impl Receiver32 {
    /// Takes a record, such as one that a program of the earlier library stored:
    ///
    /// ```
    /// use train_receiver::{Receiver, Receiver32, ffi};
    ///
    /// /// # Safety
    /// ///
    /// /// The bytes must be those of a receiver record, as a program of the earlier library stored it.
    /// unsafe fn brought_over(bytes: &[u8; size_of::<ffi::Receiver32>()]) -> Receiver {
    ///     // SAFETY: the caller hands in a record's bytes, which may stand at any address.
    ///     let record = unsafe { bytes.as_ptr().cast::<ffi::Receiver32>().read_unaligned() };
    ///     // SAFETY: the earlier library has given the record.
    ///     unsafe { Receiver32::from_record(record) }.widened()
    /// }
    /// ```
    ///
    /// # Safety
    ///
    /// The record must be one that this library or the one before it has given, or be converted from such a
    /// one (A9), field by field. What stands in the bytes between its fields does not matter.
    #[must_use]
    pub unsafe fn from_record(record: ffi::Receiver32) -> Self {
        Receiver32 { record }
    }

    /// The receiver of the record, with its count and all else unchanged (R20). It serves as one that a run
    /// has given (R23). A count that stopped at 4,294,967,295 goes on from there.
    #[must_use]
    pub fn widened(&self) -> Receiver {
        // SAFETY: a conversion takes any record. This one comes from `narrowed`, or a caller has vouched for
        // it, so that the converted one may be used (R23).
        unsafe { Receiver::from_record(ffi::trr_receiver_widen(self.record)) }
    }

    /// Symbols produced since the set-up or the last reset. The count stopped at 4,294,967,295 (R19).
    #[must_use]
    pub fn count(&self) -> u32 {
        self.record.count
    }

    /// The record, to be read.
    #[must_use]
    pub fn record(&self) -> &ffi::Receiver32 {
        &self.record
    }
}

/// Conversion down.
impl Receiver {
    /// The record of the receiver as it was before, with its count and all else unchanged. Where the count is
    /// above 4,294,967,295 it is [`TooLarge`], and there is none (R21). The receiver stays as it is in either
    /// case.
    pub fn narrowed(&self) -> Result<Receiver32, TooLarge> {
        // SAFETY: a conversion takes any record.
        let answer = unsafe { ffi::trr_receiver_narrow(*self.record()) };
        if answer.number == 0 {
            Ok(Receiver32 {
                record: answer.receiver,
            })
        } else {
            Err(TooLarge {
                count: self.count(),
            })
        }
    }
}

impl From<Receiver32> for Receiver {
    fn from(x: Receiver32) -> Self {
        x.widened()
    }
}

impl From<&Receiver32> for Receiver {
    fn from(x: &Receiver32) -> Self {
        x.widened()
    }
}

/// By reference, so that the receiver is not lost where it is too large.
impl TryFrom<&Receiver> for Receiver32 {
    type Error = TooLarge;

    fn try_from(x: &Receiver) -> Result<Self, TooLarge> {
        x.narrowed()
    }
}

/// Why a receiver has no record of the earlier kind: its symbol count does not fit into 32 bits (R21). It is no
/// [`Refusal`](crate::Refusal). The number of it, which the C header has too, is [`ffi::TOO_LARGE`].
#[derive(Clone, Copy, Debug, PartialEq, Eq)]
pub struct TooLarge {
    count: u64,
}

impl TooLarge {
    /// The receiver's symbol count.
    #[must_use]
    pub fn count(self) -> u64 {
        self.count
    }
}

/// The words are those of the C header's `trr_number_text`, and the count stands among them.
impl fmt::Display for TooLarge {
    fn fmt(&self, f: &mut fmt::Formatter<'_>) -> fmt::Result {
        let count = self.count;
        write!(
            f,
            "too large: the symbol count {count} does not fit into 32 bits"
        )
    }
}

impl Error for TooLarge {}
