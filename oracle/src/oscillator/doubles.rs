//! Arguments of 64 bits for the phase step: the number and its factor.

use super::TURN;
use crate::floats::doubles::{near, nearer, power, special, with_field};
use crate::random::Random;

/// One in so many of the f32 arguments is asked again as an f64.
const SHARE: usize = 13;

/// The f32 arguments widened, the edges of the forms, whole numbers and halves, products that are
/// no number, and random pairs.
pub fn for_steps(random: &mut Random, singles: &[f32]) -> Vec<(f64, f64)> {
    let mut list: Vec<(f64, f64)> = special().into_iter().map(|x| (x, TURN)).collect();
    let widened = singles.iter().filter(|v| !v.is_nan()).step_by(SHARE);
    list.extend(widened.map(|&v| (f64::from(v), TURN)));
    for x in edges().into_iter().chain(halves(random)) {
        list.push(shared_out(random, x));
    }
    list.extend(quotients(random));
    list.extend(odd_products());
    list.extend((0..1500).map(|_| {
        let x = with_field(random, 1023 - 20, 1023 + 35);
        (x, with_field(random, 1023 - 20, 1023 + 20))
    }));
    list
}

/// Products for which the product plus a half lies around the powers of two where the forms
/// change (2^51), halves end (2^52), odd numbers end (2^53) and the cast ends (2^63).
fn edges() -> Vec<f64> {
    let mut list = Vec::new();
    for exponent in [51, 52, 53, 63] {
        list.extend(nearer(power(exponent)));
        for sum in near(power(exponent)) {
            list.push(sum - 0.5);
        }
    }
    list
}

/// Products around whole numbers and halves.
fn halves(random: &mut Random) -> Vec<f64> {
    let mut list = Vec::new();
    for twice in 0..=8 {
        list.extend(near(f64::from(twice) / 2.0));
    }
    for bits in [31, 32, 33, 40, 45, 48, 49, 50, 51] {
        let whole = ((random.bits() | 1) >> (64 - bits)) as f64;
        list.extend(near(whole));
        list.extend(near(whole + 0.5));
    }
    list
}

/// A number and a factor whose product it is: the factor is a power of two, of either sign.
fn shared_out(random: &mut Random, product: f64) -> (f64, f64) {
    let k = random.pick(&[1.0, -1.0, 0.125, -1024.0, TURN]);
    (product / k, k)
}

/// Halves divided by a factor that is no power of two: the product is rounded to the half, or
/// next to it, before a half is added.
fn quotients(random: &mut Random) -> Vec<(f64, f64)> {
    let mut list = Vec::new();
    for k in [3.0, -10.0, 48_000.0, TURN / 48_000.0, -TURN / 1_000_000.0] {
        for _ in 0..20 {
            let half = f64::from(random.bits32() >> random.up_to(28)) + 0.5;
            list.push((half / k, k));
        }
    }
    list
}

/// Products that are infinite, NaN or zero.
fn odd_products() -> Vec<(f64, f64)> {
    let least = f64::from_bits(1);
    let mut list = Vec::new();
    for (x, k) in [
        (f64::MAX, 2.0),
        (f64::MAX, f64::MAX),
        (f64::INFINITY, 1.0),
        (f64::INFINITY, f64::INFINITY),
        (f64::INFINITY, 0.0),
        (0.0, f64::INFINITY),
        (0.0, 0.0),
        (least, 0.5),
        (least, least),
    ] {
        list.extend([(x, k), (-x, k), (x, -k), (-x, -k)]);
    }
    let other_nan = f64::from_bits(0xfff0_0000_0000_0001);
    for nan in [f64::NAN, -f64::NAN, other_nan] {
        list.extend([(nan, TURN), (nan, 0.0), (1.0, nan), (nan, nan)]);
    }
    list
}
