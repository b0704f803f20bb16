//! The constellations and the symbol numbers. Labels are those of docs/SPECIFICATION.md.

use crate::ffi;

/// The constellation.
#[derive(Clone, Copy, Debug, PartialEq, Eq, Hash)]
#[repr(u32)]
pub enum Constellation {
    /// Two points.
    Bpsk = 0,
    /// Four points.
    Qpsk = 1,
    /// Eight points.
    Psk8 = 2,
}

impl Constellation {
    /// The library's code (L4).
    #[must_use]
    pub fn code(self) -> u32 {
        self as u32
    }

    /// The constellation of a code. Any code but 0 and 1 reads as the last one.
    #[must_use]
    pub fn from_code(code: u32) -> Self {
        match code {
            0 => Constellation::Bpsk,
            1 => Constellation::Qpsk,
            _ => Constellation::Psk8,
        }
    }
}

/// The symbol number of an output sample. `None` if both parts are zero (of either sign) or if a part is NaN,
/// under every constellation (R16).
///
/// Under BPSK the number is 1 if `re` is below zero, or if `re` is zero and `im` is below zero; else it is 0
/// (R11). Under 8-PSK it is the octant, 0 to 7: of a finite sample, octant k goes from k eighths of a turn up
/// to but not including k + 1 eighths; with an infinite part the signs and the larger part decide (R12, C14).
/// Under QPSK it is half the octant, rounded down: the quadrant, 0 to 3 (R13).
///
/// ```
/// use train_receiver::{Constellation, symbol_number};
///
/// assert_eq!(symbol_number(Constellation::Qpsk, -1.0, 1.0), Some(1));
/// assert_eq!(symbol_number(Constellation::Qpsk, 0.0, -0.0), None);
/// ```
#[must_use]
pub fn symbol_number(constellation: Constellation, re: f32, im: f32) -> Option<usize> {
    // SAFETY: the function takes any code and any f32, all by value.
    let number = unsafe { ffi::trr_symbol_number(constellation.code(), re, im) };
    (number != ffi::NO_SYMBOL).then_some(number)
}
