//! The recorded answers of the number operations, for the replay of the ported ones. README.md
//! describes the lines.

use crate::bits::bits64;
use crate::lines::{Lines, wide};
use crate::num::{flush_denormal, flush_denormal_f64};
use crate::random::Random;

mod doubles;
mod singles;

/// The random arguments are the same every time.
const SEED: u64 = 20_261_115;

/// All lines, letter by letter.
pub fn recorded() -> String {
    let mut random = Random::new(SEED);
    let mut lines = Lines::default();
    for x in doubles::for_floor(&mut random) {
        lines.add('f', bits64(x), 0, bits64(libm::floor(x)));
    }
    for x in doubles::for_narrowing(&mut random) {
        lines.add('n', bits64(x), 0, wide(x as f32));
    }
    for x in singles::for_widening(&mut random) {
        lines.add('w', wide(x), 0, bits64(f64::from(x)));
    }
    for x in singles::for_flush(&mut random) {
        lines.add('s', wide(x), 0, wide(flush_denormal(x)));
    }
    for x in doubles::for_flush(&mut random) {
        lines.add('d', bits64(x), 0, bits64(flush_denormal_f64(x)));
    }
    for (x, limit) in singles::for_limit(&mut random) {
        lines.add('l', wide(x), wide(limit), wide(limit32(x, limit)));
    }
    for (x, limit) in doubles::for_limit(&mut random) {
        lines.add('m', bits64(x), bits64(limit), bits64(limit64(x, limit)));
    }
    for x in singles::for_finite(&mut random) {
        lines.add('i', wide(x), 0, u64::from(x.is_finite()));
    }
    for x in doubles::for_finite(&mut random) {
        lines.add('j', bits64(x), 0, u64::from(x.is_finite()));
    }
    lines.into_text()
}

/// The limit as a set frequency gets it. With a limit of zero the sign of the zero that comes
/// out may depend on the form, so plus zero is recorded.
fn limit32(x: f32, limit: f32) -> f32 {
    if limit == 0.0 {
        return 0.0;
    }
    let limited = x.clamp(-limit, limit);
    assert_eq!(limited.to_bits(), x.max(-limit).min(limit).to_bits());
    limited
}

/// The limit as the timing loop writes it; a limit of zero as above.
fn limit64(x: f64, limit: f64) -> f64 {
    if limit == 0.0 {
        return 0.0;
    }
    let limited = x.max(-limit).min(limit);
    assert_eq!(limited.to_bits(), x.clamp(-limit, limit).to_bits());
    limited
}

#[cfg(test)]
mod tests;
