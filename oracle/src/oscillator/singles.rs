//! Arguments of 32 bits for the phase step.

use crate::floats::doubles::power;
use crate::floats::singles::{near, nearer, special, with_field};
use crate::random::Random;

/// Every exponent, the ties of the rounding, the edges of the forms, and random numbers.
pub fn for_steps(random: &mut Random) -> Vec<f32> {
    let mut list = special();
    // NaN with the sign, and patterns that are not the usual one.
    list.extend([0xffc0_0000, 0x7f80_0001, 0xffff_ffff].map(f32::from_bits));
    for exponent in -149..=127 {
        list.extend(near(power(exponent) as f32));
    }
    for n in counts(random) {
        list.extend(near(units(n)));
        list.extend(near(units(n + 0.5)));
    }
    // From 2^14 up it is the f64 form. Its wide path begins at 2^19, where the product is 2^51;
    // at 2^20 an f64 has no half left, and at 2^31 the cast ends.
    for exponent in [14, 19, 20, 31] {
        list.extend(nearer(power(exponent) as f32));
    }
    list.extend((0..20).map(|_| with_field(random, 0, 0)));
    list.extend((0..1500).map(|_| f32::from_bits(random.bits32())));
    // As in a running loop.
    list.extend((0..1000).map(|_| random.between(-0.5, 0.5) as f32));
    list
}

/// Whole numbers of steps: small ones, powers of two and any up to 2^23. With a half added they
/// still fit an f32.
fn counts(random: &mut Random) -> Vec<f64> {
    let mut list: Vec<u32> = (0..=20).collect();
    list.extend((5..23).map(|bit| 1 << bit));
    list.extend((0..20).map(|_| random.bits32() >> (9 + random.up_to(8))));
    list.into_iter().map(f64::from).collect()
}

/// So many units of phase, as parts of a turn.
fn units(n: f64) -> f32 {
    (n * power(-32)) as f32
}
