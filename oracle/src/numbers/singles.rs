//! Arguments of 32 bits for the number operations.

use crate::floats::singles::{any, nearer, special, with_field};
use crate::random::Random;

/// The bits below the exponent.
const FRACTION: u32 = (1 << 23) - 1;

/// Every power of two with its neighbours: the subnormal ones have their leading bit in every
/// place.
pub fn for_widening(random: &mut Random) -> Vec<f32> {
    let mut list = special();
    for shift in 0..23 {
        let sign = random.bits32() << 31;
        let power = 1u32 << shift;
        list.extend([power - 1, power, power + 1].map(|bits| f32::from_bits(bits | sign)));
    }
    for field in 1..=254u32 {
        let sign = random.bits32() << 31;
        let any = random.bits32() & FRACTION;
        list.extend([0, FRACTION, any].map(|low| f32::from_bits(sign | (field << 23) | low)));
    }
    list.extend((0..60).map(|_| with_field(random, 0, 0)));
    list.extend((0..120).map(|_| any(random)));
    list
}

/// Around the flush's edge.
pub fn for_flush(random: &mut Random) -> Vec<f32> {
    let mut list = special();
    for x in [1e-30, 1e-29, 1e-31, 1e-38, 1e-44, 1.0, 1e30] {
        list.extend(nearer(x));
    }
    list.extend((0..300).map(|_| with_field(random, 127 - 110, 127 - 90)));
    list.extend((0..60).map(|_| with_field(random, 0, 1)));
    list.extend((0..150).map(|_| any(random)));
    list
}

/// Limits, and arguments inside, at and just outside each end.
pub fn for_limit(random: &mut Random) -> Vec<(f32, f32)> {
    let mut list = Vec::new();
    let least = f32::from_bits(1);
    for limit in [0.0, -0.0, least, 1e-38, 1e-30, 1e-6, 0.05, 0.25, 1.0] {
        list.extend(around_limit(random, limit));
    }
    for limit in [1e6, 1e30, f32::MAX] {
        list.extend(around_limit(random, limit));
    }
    list
}

fn around_limit(random: &mut Random, limit: f32) -> Vec<(f32, f32)> {
    let mut list = special();
    for x in [limit, limit / 2.0, limit * 2.0, 1.0, 1e9] {
        list.extend(nearer(x));
    }
    list.extend((0..8).map(|_| (f64::from(limit) * (random.unit() * 4.0 - 2.0)) as f32));
    list.extend((0..4).map(|_| any(random)));
    list.retain(|x| !x.is_nan());
    list.into_iter().map(|x| (x, limit)).collect()
}

/// Every class of number.
pub fn for_finite(random: &mut Random) -> Vec<f32> {
    let mut list = special();
    list.extend(nearer(1.0));
    list.extend([f32::MAX.next_down(), f32::MIN.next_up()]);
    list.extend((0..30).map(|_| with_field(random, 250, 254)));
    list.extend((0..30).map(|_| with_field(random, 0, 0)));
    list.extend((0..130).map(|_| any(random)));
    list
}
