//! A stand-in for the length check of the original's `kernels` module.

use crate::error::{Error, Result};

/// Two buffers that must be equally long.
pub fn check_len(input: usize, output: usize) -> Result<()> {
    if input == output {
        return Ok(());
    }
    Err(Error::LengthMismatch {
        expected: input,
        got: output,
    })
}
