//! The mean error of a detector beside the stable instant, over random symbols, and its slope. The
//! errors are those of the original's own functions.

use super::SEED;
use super::pulses::Pulse;
use super::wave::dot;
use crate::bits::Parts;
use crate::kernels::symbol_sync::{SyncSample, Ted};
use crate::random::Random;

/// How far to either side of the stable instant the slope is taken, in symbols.
pub const ASIDE: f64 = 0.001;
/// The same where noise decides, whose mean settles slowly.
const FAR_ASIDE: f64 = 0.01;
/// The places of the samples between the symbol instants over which a mean is taken.
const GRIDS: usize = 16;

/// The noise does not begin where the symbols do.
const NOISE_SEED: u64 = SEED + 1;

/// How a strobe or a middle is read from the signal.
#[derive(Clone, Copy, Debug)]
pub enum Reading {
    /// The signal's value at the very instant.
    Exact,
    /// The original's interpolation between so many samples per symbol.
    Sampled(usize),
}

/// Symbols that are sent, as parts, with a noise of this power beside each value that is read.
pub struct Sent {
    pub re: Vec<f64>,
    pub im: Vec<f64>,
    pub noise: f64,
}

/// What each symbol around a value that is read weighs in it, the oldest first.
struct Weights {
    strobe: Vec<f64>,
    middle: Vec<f64>,
}

/// The slope per symbol at the stable instant, positive where the loop is stable.
pub fn slope<T: Parts + SyncSample>(
    detector: Ted,
    pulse: Pulse,
    reading: Reading,
    sent: &Sent,
) -> f64 {
    let mean = |late: f64| mean_error::<T>(detector, pulse, reading, late, sent);
    let aside = if sent.noise > 0.0 { FAR_ASIDE } else { ASIDE };
    (mean(-aside) - mean(aside)) / (2.0 * aside)
}

/// The mean error with the strobes so late, in symbols. Where samples are read, it is the mean over
/// their places between the instants, each with its share of the symbols.
pub fn mean_error<T: Parts + SyncSample>(
    detector: Ted,
    pulse: Pulse,
    reading: Reading,
    late: f64,
    sent: &Sent,
) -> f64 {
    let symbols = sent.re.len();
    match reading {
        Reading::Exact => {
            let weights = Weights::new(pulse, late, |pulse, t| pulse.at(t));
            mean_over::<T>(detector, &weights, sent, 0, symbols)
        }
        Reading::Sampled(pace) => {
            let share = symbols / GRIDS;
            let means = (0..GRIDS).map(|place| {
                let grid = (place as f64 + 0.5) / (GRIDS * pace) as f64;
                let read = |pulse, t| interpolated(pulse, t, grid, pace as f64);
                let weights = Weights::new(pulse, late, read);
                mean_over::<T>(detector, &weights, sent, place * share, share)
            });
            means.sum::<f64>() / GRIDS as f64
        }
    }
}

/// A pulse at a time, from its samples at `grid` and each `1 / pace` from there.
fn interpolated(pulse: Pulse, t: f64, grid: f64, pace: f64) -> f64 {
    let place = (t - grid) * pace;
    let whole = place.floor();
    let sample = |on: f64| pulse.at(grid + (whole + on) / pace) as f32;
    let window = [-1.0, 0.0, 1.0, 2.0].map(sample);
    f64::from(f32::interp(&window, (place - whole) as f32))
}

impl Weights {
    /// For strobes so late, and middles half a symbol before them.
    fn new(pulse: Pulse, late: f64, read: impl Fn(Pulse, f64) -> f64) -> Self {
        let reach = pulse.reach() as i32;
        let at = |t: f64| {
            let back = (-reach..=reach).rev();
            back.map(|symbols| read(pulse, t + f64::from(symbols)))
                .collect()
        };
        Self {
            strobe: at(late),
            middle: at(late - 0.5),
        }
    }
}

/// The mean error over so many symbols from the first one on.
fn mean_over<T: Parts + SyncSample>(
    detector: Ted,
    weights: &Weights,
    sent: &Sent,
    first: usize,
    count: usize,
) -> f64 {
    let mut random = Random::new(NOISE_SEED + first as u64);
    let mut read = |weights: &[f64], at: usize| {
        let around = at..at + weights.len();
        let mut part = |parts: &[f64]| weighed(weights, &parts[around.clone()], sent, &mut random);
        let re = part(&sent.re);
        let im = if T::COUNT > 1 { part(&sent.im) } else { 0.0 };
        T::of_pair(re as f32, im as f32)
    };
    let last = first + count - weights.strobe.len();
    let mut before = read(&weights.strobe, first);
    let mut sum = 0.0;
    for at in first + 1..=last {
        let y = read(&weights.strobe, at);
        let error = match detector {
            Ted::Gardner => T::gardner(before, y, read(&weights.middle, at)),
            Ted::MuellerMuller => T::mm(T::decide(before), y, T::decide(y), before),
        };
        sum += f64::from(error);
        before = y;
    }
    sum / (last - first) as f64
}

/// One part: the sum of the weighed symbols, and noise if there is any.
fn weighed(weights: &[f64], parts: &[f64], sent: &Sent, random: &mut Random) -> f64 {
    let clean = dot(weights, parts);
    if sent.noise > 0.0 {
        clean + (sent.noise / 2.0).sqrt() * random.bell()
    } else {
        clean
    }
}
