//! The timing error detectors. Labels are those of docs/SPECIFICATION.md.

/// The timing error detector.
///
/// Gardner's needs no carrier lock. Mueller-Müller's decides on strobes from which the carrier is not
/// removed yet, so that under QPSK and 8-PSK a carrier that turns slowly (0.0001 to 0.001 cycles per
/// symbol at a loop bandwidth of 0.01), or that stands at a bad angle, makes it slip symbols or fail.
/// Prefer Gardner's unless the carrier is removed first. docs/THEORY.md has the measured table.
#[derive(Clone, Copy, Debug, PartialEq, Eq, Hash)]
#[repr(u32)]
pub enum Detector {
    /// The last strobe less this one, times the midpoint sample (middle) between the two. For complex
    /// samples, the product of the real parts and that of the imaginary parts are added (T14).
    Gardner = 0,
    /// The last strobe's decision times this strobe, less this strobe's decision times the last strobe,
    /// each product being that of the real parts plus that of the imaginary parts. A decision is the sign
    /// of each part: 1, -1, or 0 for a zero or NaN (T15).
    MuellerMuller = 1,
}

impl Detector {
    /// The library's code (L4).
    #[must_use]
    pub fn code(self) -> u32 {
        self as u32
    }

    /// The detector of a code. Any code but 0 reads as the last one.
    #[must_use]
    pub fn from_code(code: u32) -> Self {
        match code {
            0 => Detector::Gardner,
            _ => Detector::MuellerMuller,
        }
    }
}
