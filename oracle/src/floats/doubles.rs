//! Floats of 64 bits.

use crate::random::Random;
use crate::signal::odd_value;

/// The ends of all ranges of set-ups.
const ENDS: [f64; 9] = [2.0, 1_000_000.0, 0.0001, 0.1, 0.2, 4.0, 0.05, 0.25, 0.0];

/// The power of two.
pub fn power(exponent: i32) -> f64 {
    f64::from_bits(((1023 + exponent) as u64) << 52)
}

/// `x` and its two neighbours, and all three negated.
pub fn near(x: f64) -> [f64; 6] {
    let (down, up) = (x.next_down(), x.next_up());
    [x, down, up, -x, -down, -up]
}

/// `x` and two neighbours on each side, and all of them negated.
pub fn nearer(x: f64) -> Vec<f64> {
    let (down, up) = (x.next_down().next_down(), x.next_up().next_up());
    [&near(x)[..], &[down, up, -down, -up]].concat()
}

/// Zeros, the ends of the subnormal and normal numbers, infinities and NaN.
pub fn special() -> Vec<f64> {
    let least = f64::from_bits(1);
    let mut list = vec![0.0, -0.0, f64::INFINITY, f64::NEG_INFINITY, f64::NAN];
    list.extend([least, -least, f64::MAX, f64::MIN]);
    list.extend(near(f64::MIN_POSITIVE));
    list
}

/// Any bits but those of NaN.
pub fn any(random: &mut Random) -> f64 {
    loop {
        let x = f64::from_bits(random.bits());
        if !x.is_nan() {
            return x;
        }
    }
}

/// Any fraction and sign, with an exponent field between two.
pub fn with_field(random: &mut Random, low: usize, high: usize) -> f64 {
    let field = (low + random.up_to(high - low)) as u64;
    let bits = random.bits();
    f64::from_bits((bits & !(0x7ff << 52)) | (field << 52))
}

/// A number that a set-up does not ordinarily have.
pub fn odd_double(random: &mut Random) -> f64 {
    match random.up_to(4) {
        0 => random.pick(&special()),
        1 | 2 => {
            let end = random.pick(&ENDS);
            random.pick(&near(end))
        }
        3 => f64::from(odd_value(random)),
        _ => f64::from_bits(random.bits()),
    }
}
