//! The original's errors as the numbers of refusals (E1 to E7 of docs/SPECIFICATION.md). Number 8 is not
//! here: it concerns buffers of single parts, and the original lends whole complex samples.

use crate::error::Error;

/// A phrase of a message, and the number it stands for. The first that fits counts: the
/// message about infinite gains names the detector's gain too.
const PHRASES: [(&str, u8); 7] = [
    ("symbol sync loop gains", 6),
    ("samples per symbol", 1),
    ("loop bandwidth", 2),
    ("damping", 3),
    ("maximum deviation", 4),
    ("maximum offset", 4),
    ("detector gain", 5),
];

/// The number, or none for an error that cannot occur (A11).
pub fn number(error: &Error) -> Option<u8> {
    match error {
        Error::LengthMismatch { .. } => Some(7),
        Error::InvalidParameter(message) => PHRASES
            .iter()
            .find(|(phrase, _)| message.contains(phrase))
            .map(|(_, number)| *number),
        Error::Unsupported(_) | Error::Internal(_) => None,
    }
}

/// The answer for an error.
pub fn answer(error: &Error) -> String {
    match number(error) {
        Some(number) => format!("refused {number}"),
        None => format!("error {error:?}"),
    }
}
