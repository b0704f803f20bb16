//! Recordings of random symbols: a pulse for each, a carrier, and noise as a matched filter leaves it.

use super::ROLL_OFF;
use super::points::{Points, turned};
use super::pulses::{Pulse, root_raised_cosine};
use crate::random::Random;
use crate::types::C32;

/// The filter of the noise reaches so many symbols to either side.
const FILTER_REACH: usize = 16;
/// Sums are made in so many lanes, so that they are quick.
const LANES: usize = 4;

/// The pulse where one stands for all.
pub const RAISED_COSINE: Pulse = Pulse::RaisedCosine(ROLL_OFF);

/// A complex value, real part first.
pub type Pair = (f64, f64);

/// A recording, and what was sent.
pub struct Wave {
    /// The numbers of the symbols.
    pub numbers: Vec<usize>,
    /// Samples per symbol.
    pub pace: f64,
    /// The time of the first sample, in symbols; symbol k is due at time k.
    pub start: f64,
    samples: Vec<Pair>,
}

impl Wave {
    /// Raised-cosine pulses.
    pub fn new(random: &mut Random, points: Points, symbols: usize, pace: f64, late: f64) -> Self {
        Self::shaped(random, RAISED_COSINE, points, symbols, pace, late)
    }

    /// Such pulses, and samples while there are whole symbols around them. The strobe that a fresh loop
    /// takes first, at sample 1, is so late, in symbols.
    pub fn shaped(
        random: &mut Random,
        pulse: Pulse,
        points: Points,
        symbols: usize,
        pace: f64,
        late: f64,
    ) -> Self {
        let reach = pulse.reach();
        let numbers = points.random(random, symbols + 2 * reach);
        let (re, im): (Vec<f64>, Vec<f64>) = numbers.iter().map(|n| points.point(*n)).unzip();
        let start = reach as f64 + late - 1.0 / pace;
        let count = ((symbols as f64 - 1.0) * pace) as usize;
        let mut weights = vec![0.0; 2 * reach];
        let sample = |place: usize| {
            let time = start + place as f64 / pace;
            let first = time.floor() as usize + 1 - reach;
            for (on, weight) in weights.iter_mut().enumerate() {
                *weight = pulse.at(time - (first + on) as f64);
            }
            let around = first..first + weights.len();
            (
                dot(&weights, &re[around.clone()]),
                dot(&weights, &im[around]),
            )
        };
        let samples = (0..count).map(sample).collect();
        Self {
            numbers,
            pace,
            start,
            samples,
        }
    }

    /// On a carrier that begins at so many turns and grows by so many a symbol, with this noise.
    pub fn carried(&self, turn: f64, turns_per_symbol: f64, noise: &[Pair]) -> Vec<C32> {
        let step = turns_per_symbol / self.pace;
        let turns = (0..).map(|place| (turn + step * f64::from(place)).fract());
        let all = self.samples.iter().zip(noise).zip(turns);
        all.map(|((sample, noise), turns)| {
            let (re, im) = turned(*sample, turns);
            C32::new((re + noise.0) as f32, (im + noise.1) as f32)
        })
        .collect()
    }

    /// How many samples there are.
    pub fn len(&self) -> usize {
        self.samples.len()
    }

    /// The time of a place among the samples, in symbols.
    pub fn time(&self, place: f64) -> f64 {
        self.start + place / self.pace
    }
}

/// So many samples of noise with this power, at so many samples per symbol, through the root-raised
/// cosine filter.
pub fn noise(random: &mut Random, pace: usize, count: usize, power: f64) -> Vec<Pair> {
    let filter = filter(pace);
    let mut part = || {
        let white: Vec<f64> = (0..count + filter.len()).map(|_| random.bell()).collect();
        let around = white.windows(filter.len()).take(count);
        let size = (power / 2.0).sqrt();
        around.map(|w| size * dot(w, &filter)).collect::<Vec<f64>>()
    };
    let (re, im) = (part(), part());
    re.into_iter().zip(im).collect()
}

/// The filter at so many samples per symbol, with the power 1.
fn filter(pace: usize) -> Vec<f64> {
    let reach = (FILTER_REACH * pace) as i32;
    let value = |place: i32| root_raised_cosine(ROLL_OFF, f64::from(place) / pace as f64);
    let raw: Vec<f64> = (-reach..=reach).map(value).collect();
    let size = dot(&raw, &raw).sqrt();
    raw.into_iter().map(|value| value / size).collect()
}

/// The sum of the products.
pub fn dot(a: &[f64], b: &[f64]) -> f64 {
    let mut sums = [0.0; LANES];
    let (fours, others) = (a.chunks_exact(LANES), b.chunks_exact(LANES));
    let rest = fours.remainder().iter().zip(others.remainder());
    let rest: f64 = rest.map(|(x, y)| x * y).sum();
    for (x, y) in fours.zip(others) {
        for lane in 0..LANES {
            sums[lane] += x[lane] * y[lane];
        }
    }
    sums.iter().sum::<f64>() + rest
}
