//! Why a call is refused. Labels are those of docs/SPECIFICATION.md.

use crate::ffi::{Counts, Progress};
use std::error::Error;
use std::fmt;

/// Why a call is refused. A refusal is given where its condition holds and no other refusal comes before
/// it, and nowhere else (A2). Ranges include their ends, and minus zero is 0 (A3).
#[derive(Clone, Copy, Debug, PartialEq, Eq, Hash)]
#[repr(u32)]
pub enum Refusal {
    /// The samples per symbol (pace) are not a finite number from 2 to 1,000,000 (E1).
    Pace = 1,
    /// The loop bandwidth (width), a fraction of the symbol rate, is not a finite number from 0.0001 to 0.1
    /// (timing) or from 0.0001 to 0.2 (carrier) (E2).
    Width = 2,
    /// The damping is not a finite number from 0.1 to 4 (E3).
    Damping = 3,
    /// Timing: the maximum deviation (pull), a fraction of the samples per symbol, is not a finite number
    /// from 0 to 0.05. Carrier: the maximum frequency offset (pull) is not a finite number from 0 to 0.25
    /// cycles per symbol (E4).
    Pull = 4,
    /// The detector gain (slope) is not a finite number above 0 (E5).
    Slope = 5,
    /// A gain of the timing loop, kp or ki, that follows from the values (T3) is not finite (E6).
    Gains = 6,
    /// Two buffers are not equally long: input and output of a carrier, or strobe buffer and output of a
    /// receiver (E7).
    Uneven = 7,
    /// The count of f32 of a complex buffer is odd (E8).
    Odd = 8,
}

impl Refusal {
    /// All of them, by their numbers.
    pub const ALL: [Refusal; 8] = [
        Refusal::Pace,
        Refusal::Width,
        Refusal::Damping,
        Refusal::Pull,
        Refusal::Slope,
        Refusal::Gains,
        Refusal::Uneven,
        Refusal::Odd,
    ];

    /// The number, 1 to 8, which the C header and the labels E1 to E8 have too.
    #[must_use]
    pub fn number(self) -> u32 {
        self as u32
    }

    /// The refusal's word.
    #[must_use]
    pub fn word(self) -> &'static str {
        match self {
            Refusal::Pace => "pace",
            Refusal::Width => "width",
            Refusal::Damping => "damping",
            Refusal::Pull => "pull",
            Refusal::Slope => "slope",
            Refusal::Gains => "gains",
            Refusal::Uneven => "uneven",
            Refusal::Odd => "odd",
        }
    }

    /// What is wrong, in words. The C header's `trr_number_text` has the same.
    #[must_use]
    pub fn condition(self) -> &'static str {
        match self {
            Refusal::Pace => "the samples per symbol are not a finite number from 2 to 1,000,000",
            Refusal::Width => {
                "the loop bandwidth is not a finite number from 0.0001 to 0.1 (timing) or 0.2 (carrier)"
            }
            Refusal::Damping => "the damping is not a finite number from 0.1 to 4",
            Refusal::Pull => {
                "the largest deviation (timing) is not a finite number from 0 to 0.05, or the largest \
                 offset (carrier) none from 0 to 0.25 cycles per symbol"
            }
            Refusal::Slope => "the detector gain is not a finite number above 0",
            Refusal::Gains => "a timing gain that follows from these values is not finite",
            Refusal::Uneven => {
                "the carrier's input and output, or the receiver's strobes and output, are not equally \
                 long"
            }
            Refusal::Odd => "the count of f32 of a complex buffer is odd",
        }
    }

    /// The answer that a number stands for.
    ///
    /// # Panics
    ///
    /// If the number is above 8, which no function of the library answers.
    pub(crate) fn check(number: u32) -> Result<(), Refusal> {
        if number == 0 {
            return Ok(());
        }
        let refusal = Refusal::ALL.into_iter().find(|r| r.number() == number);
        Err(refusal.expect("the library answers 0 to 8"))
    }

    /// The answer that a number and counts stand for.
    pub(crate) fn progress(counts: Counts) -> Result<Progress, Refusal> {
        Refusal::check(counts.number)?;
        Ok(Progress {
            consumed: counts.consumed,
            produced: counts.produced,
        })
    }
}

impl fmt::Display for Refusal {
    fn fmt(&self, f: &mut fmt::Formatter<'_>) -> fmt::Result {
        write!(f, "{}: {}", self.word(), self.condition())
    }
}

impl Error for Refusal {}
