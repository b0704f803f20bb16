//! The recorded answers of the oscillator and of the phase steps, for the replay of the ported
//! ones. README.md describes the lines.

use crate::fallback::costas::phase_step_f32;
use crate::fallback::mix::interp_f32_pair;
use crate::fallback::modulate::phase_step;
use crate::lines::{Lines, wide};
use crate::random::Random;

mod doubles;
mod singles;

/// The random arguments are the same every time.
const SEED: u64 = 20_261_116;
/// One turn of phase.
pub const TURN: f64 = 4_294_967_296.0;
/// A phase has a table index above this many bits of fraction.
const FRACTION_BITS: u32 = 20;
/// The fractions that every index is asked with: both ends, the least above 0 and the middle.
const FRACTIONS: [u32; 4] = [0, 1, 1 << 19, (1 << 20) - 1];

/// All lines, letter by letter.
pub fn recorded() -> String {
    let mut random = Random::new(SEED);
    let mut lines = Lines::default();
    for phase in phases(&mut random) {
        lines.add('p', u64::from(phase), 0, pair(phase));
    }
    let steps = singles::for_steps(&mut random);
    for &v in &steps {
        lines.add('t', u64::from(v.to_bits()), 0, step32(v));
    }
    for (x, k) in doubles::for_steps(&mut random, &steps) {
        lines.add('u', x.to_bits(), k.to_bits(), u64::from(phase_step(x, k)));
    }
    lines.into_text()
}

/// Every index with each fraction, and random phases.
fn phases(random: &mut Random) -> Vec<u32> {
    let mut list = Vec::new();
    for index in 0..4096 {
        list.extend(FRACTIONS.map(|fraction| (index << FRACTION_BITS) | fraction));
    }
    list.extend((0..1000).map(|_| random.bits32()));
    list
}

/// Cosine and sine as one word, the cosine's bits above the sine's.
fn pair(phase: u32) -> u64 {
    let (cosine, sine) = interp_f32_pair(phase).expect("the table has an entry for every phase");
    (wide(cosine) << 32) | wide(sine)
}

/// The step of an f32. The original has two forms of it, which must agree.
fn step32(v: f32) -> u64 {
    let step = phase_step_f32(v);
    assert_eq!(step, phase_step(f64::from(v), TURN));
    u64::from(step)
}

#[cfg(test)]
mod tests;
