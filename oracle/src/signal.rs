//! Samples for the comparison and the recordings: a modulated signal with noise, and odd values mixed in.

use std::f64::consts::TAU;

use crate::bits::Parts;
use crate::random::Random;

/// From here on a block repeats pieces of its own beginning, to be made quickly.
const FRESH: usize = 4096;

/// Sizes of a signal. Of the small ones the fourth power (6e-12) or the square (4e-23) is about
/// the least subnormal, of the large ones the square or the sample overflows now and then.
const SIZES: [f64; 12] = [
    1.0, 1.0, 1.0, 0.7, 30.0, 1e-12, 6e-12, 1e-20, 4e-23, 1e12, 1e19, 1e38,
];

/// The noise of an ordinary signal.
pub const NOISE: f64 = 0.1;

/// A signal that goes on from sample to sample.
pub struct Signal {
    /// Points on the circle; 0 is silence.
    points: usize,
    /// Samples for each symbol.
    period: f64,
    /// How much of the present symbol has gone by, 0 to 1.
    gone: f64,
    from: (f64, f64),
    to: (f64, f64),
    /// Whether a symbol stays as it is until the next one.
    held: bool,
    /// The carrier, in turns, and what it grows by at each sample.
    turn: f64,
    turn_step: f64,
    size: f64,
    noise: f64,
    /// The share of odd values.
    odd: f64,
}

impl Signal {
    /// A random signal with about so many samples for each symbol.
    pub fn new(random: &mut Random, period: f64) -> Self {
        let off = random.pick(&[0.0, 0.0, 1e-4, 0.01]);
        let (turn, turn_step) = (random.unit(), random.between(-0.3, 0.3));
        Self {
            points: random.pick(&[2, 2, 4, 4, 4, 8, 8, 0]),
            period: period * random.between(1.0 - off, 1.0 + off),
            gone: random.unit(),
            from: (1.0, 0.0),
            to: (1.0, 0.0),
            held: false,
            turn: random.pick(&[0.0, 0.125, 0.25, turn]),
            turn_step: random.pick(&[0.0, 0.0, 0.01, turn_step]),
            size: random.pick(&SIZES),
            noise: random.pick(&[0.0, 0.02, 0.1, 0.5]),
            odd: random.pick(&[0.0, 0.0, 0.0, 0.001, 0.02, 0.3, 1.0]),
        }
    }

    /// A signal with a little noise, on no carrier and without odd values.
    pub fn ordinary(points: usize, period: f64) -> Self {
        Self {
            points,
            period,
            gone: 0.0,
            from: (1.0, 0.0),
            to: (1.0, 0.0),
            held: false,
            turn: 0.0,
            turn_step: 0.0,
            size: 1.0,
            noise: NOISE,
            odd: 0.0,
        }
    }

    /// The same on a carrier, which begins at so many turns and grows by so many at each sample.
    pub fn carried(self, turn: f64, turn_step: f64) -> Self {
        Self {
            turn,
            turn_step,
            ..self
        }
    }

    /// The same with this noise.
    #[cfg(feature = "ported")]
    pub fn noisy(self, noise: f64) -> Self {
        Self { noise, ..self }
    }

    /// The same, but each symbol stays as it is until the next one.
    #[cfg(feature = "ported")]
    pub fn held(self) -> Self {
        Self { held: true, ..self }
    }

    /// The next sample.
    pub fn sample<T: Parts>(&mut self, random: &mut Random) -> T {
        let (re, im) = self.next(random);
        T::of_pair(re, im)
    }

    /// A whole block of samples.
    pub fn block<T: Parts>(&mut self, random: &mut Random, length: usize) -> Vec<T> {
        let mut block = Vec::with_capacity(length);
        while block.len() < length.min(FRESH) {
            block.push(self.sample(random));
        }
        while block.len() < length {
            let piece = (length - block.len()).min(1 + random.up_to(FRESH - 1));
            let start = random.up_to(FRESH - piece);
            block.extend_from_within(start..start + piece);
        }
        block
    }

    fn next(&mut self, random: &mut Random) -> (f32, f32) {
        self.gone += 1.0 / self.period;
        if self.gone >= 1.0 {
            self.gone = self.gone.fract();
            self.from = self.to;
            self.to = self.symbol(random);
        }
        let turned = self.on_carrier();
        (self.part(random, turned.0), self.part(random, turned.1))
    }

    /// The next symbol: a point at an odd multiple of half the points' angle, so that four
    /// points stand on the diagonals; one point or two stand on the axis.
    fn symbol(&self, random: &mut Random) -> (f64, f64) {
        match self.points {
            0 => (0.0, 0.0),
            1 => (1.0, 0.0),
            2 => (random.pick(&[1.0, -1.0]), 0.0),
            points => {
                let point = random.up_to(points - 1) as f64 + 0.5;
                let (sine, cosine) = (TAU * point / points as f64).sin_cos();
                (cosine, sine)
            }
        }
    }

    /// The value between the last symbol and the next one, turned by the carrier.
    fn on_carrier(&mut self) -> (f64, f64) {
        let gone = if self.held { 0.0 } else { self.gone };
        let s = gone * gone * (3.0 - 2.0 * gone);
        let re = self.from.0 + (self.to.0 - self.from.0) * s;
        let im = self.from.1 + (self.to.1 - self.from.1) * s;
        self.turn = (self.turn + self.turn_step).fract();
        let (sine, cosine) = (TAU * self.turn).sin_cos();
        (re * cosine - im * sine, re * sine + im * cosine)
    }

    /// One part: scaled, with noise, or an odd value instead.
    fn part(&self, random: &mut Random, x: f64) -> f32 {
        if self.odd > 0.0 && random.chance(self.odd) {
            return odd_value(random);
        }
        let noise = if self.points == 0 {
            0.0
        } else {
            self.noise * random.bell()
        };
        ((x + noise) * self.size) as f32
    }
}

/// A value that an ordinary signal does not have.
pub fn odd_value(random: &mut Random) -> f32 {
    let sign = random.bits32() & 0x8000_0000;
    let any = random.bits32() & 0x007f_ffff;
    let magnitude = match random.up_to(11) {
        0 => 0x7fc0_0000 | any, // NaN
        1 => 0x7f80_0000,       // infinity
        2 | 3 => 0,
        4 => any,                                                // subnormal
        5 => 1,                                                  // the least subnormal
        6 => 0x0080_0000,                                        // the least normal
        7 => 0x7f7f_ffff,                                        // the largest
        8 => 1e-30f32.to_bits() + random.up_to(2) as u32 - 1,    // around the flush
        9 => (0x1f + 0x20 * random.up_to(6) as u32) << 23 | any, // huge and tiny
        10 => 0x3f80_0000,                                       // one
        _ => random.bits32() & 0x7fff_ffff,                      // anything
    };
    f32::from_bits(sign | magnitude)
}
