//! Hands out what the original's `reference/costas.rs` keeps to its folder: nothing is computed
//! here.

use super::costas;

/// The second implementation's phase step.
pub fn correction(v: f32) -> u32 {
    costas::correction(v)
}

/// The second implementation's cosine of a phase.
pub fn cos_f32(phase: u32) -> f32 {
    costas::cos_f32(phase)
}
