//! Floats of 32 bits.

use crate::random::Random;

/// `x` and its two neighbours, and all three negated.
pub fn near(x: f32) -> [f32; 6] {
    let (down, up) = (x.next_down(), x.next_up());
    [x, down, up, -x, -down, -up]
}

/// `x` and two neighbours on each side, and all of them negated.
pub fn nearer(x: f32) -> [f32; 10] {
    let (down, up) = (x.next_down(), x.next_up());
    let (below, above) = (down.next_down(), up.next_up());
    [x, down, up, below, above, -x, -down, -up, -below, -above]
}

/// Zeros, the ends of the subnormal and normal numbers, infinities and NaN.
pub fn special() -> Vec<f32> {
    let least = f32::from_bits(1);
    let mut list = vec![0.0, -0.0, f32::INFINITY, f32::NEG_INFINITY, f32::NAN];
    list.extend([least, -least, f32::MAX, f32::MIN]);
    list.extend(nearer(f32::MIN_POSITIVE));
    list
}

/// Any bits but those of NaN.
pub fn any(random: &mut Random) -> f32 {
    loop {
        let x = f32::from_bits(random.bits32());
        if !x.is_nan() {
            return x;
        }
    }
}

/// Any fraction and sign, with an exponent field between two.
pub fn with_field(random: &mut Random, low: usize, high: usize) -> f32 {
    let field = (low + random.up_to(high - low)) as u32;
    f32::from_bits((random.bits32() & !(0xff << 23)) | (field << 23))
}
