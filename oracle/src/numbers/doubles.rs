//! Arguments of 64 bits for the number operations.

use crate::floats::doubles::{any, near, nearer, power, special, with_field};
use crate::random::Random;

/// The bits below the exponent.
const FRACTION: u64 = (1 << 52) - 1;
/// An f64 keeps this many bits more than an f32: a tie of narrowing is half of it.
const TIE: u64 = 1 << 28;

/// Around every whole number that matters, and at every exponent.
pub fn for_floor(random: &mut Random) -> Vec<f64> {
    let mut list = special();
    for x in [0.25, 0.5, 0.75, 1.0, 1.5, 2.0, 2.5, 3.0, 3.5, 1e-300, 1e-30] {
        list.extend(near(x));
    }
    for exponent in -3..=62 {
        list.extend(near(power(exponent)));
    }
    for exponent in [2, 3, 4, 10, 20, 31, 32, 48, 49, 50, 51, 52, 53] {
        for step in [-1.0, -0.5, 0.5, 1.0] {
            list.extend(near(power(exponent) + step));
        }
    }
    for bits in 1..=52 {
        let whole = (random.bits() >> (64 - bits)) as f64;
        list.extend(near(whole));
        list.push(whole + 0.5);
        list.push(-whole - 0.5);
    }
    list.extend((0..300).map(|_| with_field(random, 1023 - 3, 1023 + 55)));
    list.extend((0..20).map(|_| with_field(random, 0, 0)));
    list.extend((0..250).map(|_| any(random)));
    list
}

/// Ties and their neighbours, both ends of the range of f32, and every exponent near them.
pub fn for_narrowing(random: &mut Random) -> Vec<f64> {
    let mut list = special();
    for single in narrowing_results(random) {
        list.extend(around_tie_above(single));
    }
    for field in (868..=900).chain(1147..=1154).chain([0, 1, 2045, 2046]) {
        list.extend(narrowing_fractions(random, field));
    }
    // The least f32, half of it and a quarter, the least normal, the overflow's edge.
    for x in [
        power(-149),
        power(-150),
        power(-151),
        power(-126),
        power(128),
    ] {
        list.extend(nearer(x));
    }
    list.extend((0..300).map(|_| with_field(random, 1023 - 126, 1023 + 127)));
    list.extend((0..150).map(|_| with_field(random, 1023 - 152, 1023 - 126)));
    list.extend((0..60).map(|_| any(random)));
    list
}

/// The bits of f32 numbers whose upper tie is looked at: odd and even ones, subnormal and
/// normal, and the largest, whose upper tie is the edge of overflow.
fn narrowing_results(random: &mut Random) -> Vec<u32> {
    let mut list = vec![0, 1, 2, 3, 4, 5, 0x007f_fffe, 0x007f_ffff, 0x0080_0000];
    list.extend([0x0080_0001, 0x00ff_ffff, 0x0100_0000, 0x3f7f_ffff]);
    list.extend([0x3f80_0000, 0x3f80_0001, 0x7f7f_fffe, 0x7f7f_ffff]);
    list.extend((0..24).map(|shift| 1 << shift));
    list.extend((0..30).map(|_| random.bits32() & 0x007f_ffff));
    list.extend((0..40).map(|_| random.bits32() % 0x7f7f_ffff));
    list
}

/// The tie between a positive f32 and the next one, its neighbours, and the f32 itself with
/// its neighbours.
fn around_tie_above(single: u32) -> Vec<f64> {
    let x = f64::from(f32::from_bits(single));
    let next = if single == 0x7f7f_ffff {
        power(128)
    } else {
        f64::from(f32::from_bits(single + 1))
    };
    // Both have 24 bits, so their middle is exact.
    let tie = x + (next - x) / 2.0;
    let mut list = near(tie).to_vec();
    list.extend([x, -x, x.next_up(), -x.next_up()]);
    list
}

/// One exponent field with fractions around the places that narrowing looks at.
fn narrowing_fractions(random: &mut Random, field: u64) -> Vec<f64> {
    let odd = 2 * TIE;
    let mut fractions = vec![0, 1, TIE - 1, TIE, TIE + 1, odd, odd + TIE, FRACTION];
    fractions.extend([1 << 51, FRACTION - TIE, FRACTION + 1 - TIE]);
    fractions.push(random.bits() & FRACTION);
    fractions
        .into_iter()
        .map(|fraction| {
            let sign = random.bits() << 63;
            f64::from_bits(sign | (field << 52) | fraction)
        })
        .collect()
}

/// Around the flush's edge, in both widths' sense.
pub fn for_flush(random: &mut Random) -> Vec<f64> {
    let mut list = special();
    for x in [1e-30, f64::from(1e-30f32), 1e-29, 1e-31, 1e-300, 1.0, 1e30] {
        list.extend(nearer(x));
    }
    list.extend((0..300).map(|_| with_field(random, 1023 - 110, 1023 - 90)));
    list.extend((0..40).map(|_| with_field(random, 0, 1)));
    list.extend((0..150).map(|_| any(random)));
    list
}

/// Limits, and arguments inside, at and just outside each end.
pub fn for_limit(random: &mut Random) -> Vec<(f64, f64)> {
    let mut list = Vec::new();
    let least = f64::from_bits(1);
    for limit in [0.0, -0.0, least, 1e-300, 0.05, 0.1, 0.25, 0.5, 1.0, 12.5] {
        list.extend(around_limit(random, limit));
    }
    for limit in [50_000.0, 262_500.0, 1e300, f64::MAX] {
        list.extend(around_limit(random, limit));
    }
    list
}

fn around_limit(random: &mut Random, limit: f64) -> Vec<(f64, f64)> {
    let mut list = special();
    for x in [limit, limit / 2.0, limit * 2.0, 1.0, 1e9] {
        list.extend(nearer(x));
    }
    list.extend((0..8).map(|_| limit * (random.unit() * 4.0 - 2.0)));
    list.extend((0..4).map(|_| any(random)));
    list.retain(|x| !x.is_nan());
    list.into_iter().map(|x| (x, limit)).collect()
}

/// Every class of number.
pub fn for_finite(random: &mut Random) -> Vec<f64> {
    let mut list = special();
    list.extend(nearer(1.0));
    list.extend([f64::MAX.next_down(), f64::MIN.next_up()]);
    list.extend((0..30).map(|_| with_field(random, 2040, 2046)));
    list.extend((0..30).map(|_| with_field(random, 0, 0)));
    list.extend((0..130).map(|_| any(random)));
    list
}
