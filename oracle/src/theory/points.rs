//! The symbols that are sent.

use std::f64::consts::TAU;

use crate::carrier_runs::CONSTELLATIONS;
use crate::kernels::costas::CostasConstellation;
use crate::random::Random;

/// Points on a circle, evenly apart.
#[derive(Clone, Copy, Debug)]
pub struct Points {
    /// As the tables name them.
    pub name: &'static str,
    /// How many there are.
    pub count: usize,
    /// How far from 0 they are.
    pub size: f64,
}

/// The constellations of the receiver, with points of magnitude 1.
pub const CIRCLES: [(CostasConstellation, Points); 3] = [
    (CONSTELLATIONS[0], unit("BPSK", 2)),
    (CONSTELLATIONS[1], unit("QPSK", 4)),
    (CONSTELLATIONS[2], unit("8-PSK", 8)),
];

/// Points of magnitude 1.
pub const fn unit(name: &'static str, count: usize) -> Points {
    Points {
        name,
        count,
        size: 1.0,
    }
}

impl Points {
    /// The point of a number: two stand on the real axis, four and eight at odd multiples of half their
    /// distance in angle, so that the numbers are the receiver's symbol numbers.
    pub fn point(self, number: usize) -> (f64, f64) {
        let (step, first) = (
            TAU / self.count as f64,
            if self.count == 2 { 0.0 } else { 0.5 },
        );
        let (sine, cosine) = (step * (number as f64 + first)).sin_cos();
        (self.size * cosine, self.size * sine)
    }

    /// The mean of both parts' magnitudes, added.
    pub fn magnitudes(self) -> f64 {
        let points = (0..self.count).map(|number| self.point(number));
        points.map(|(re, im)| re.abs() + im.abs()).sum::<f64>() / self.count as f64
    }

    /// Numbers of random symbols.
    pub fn random(self, random: &mut Random, symbols: usize) -> Vec<usize> {
        let number = |_| random.up_to(self.count - 1);
        (0..symbols).map(number).collect()
    }
}

/// A value turned on by an angle in turns.
pub fn turned((re, im): (f64, f64), turns: f64) -> (f64, f64) {
    let (sine, cosine) = (TAU * turns).sin_cos();
    (re * cosine - im * sine, re * sine + im * cosine)
}

#[cfg(test)]
mod tests {
    use super::*;
    use crate::receiver_runs::receiver::symbol_number;
    use crate::types::C32;

    #[test]
    fn the_numbers_are_the_receivers() {
        for (constellation, points) in CIRCLES {
            for number in 0..points.count {
                let (re, im) = points.point(number);
                let heard = symbol_number(constellation, C32::new(re as f32, im as f32));
                // The second of two has a part beside 0 that is not exactly 0.
                assert_eq!(heard, Some(number as u64), "{}", points.name);
            }
        }
    }
}
