//! The blocks of a session's calls: lengths, samples, places, and calls that are refused.

use super::lanes::{Kind, Lane};
use super::lent::parts;
use super::ops::Run;
use crate::compare::{carrier, timing};
use crate::random::Random;
use crate::signal::{Signal, odd_value};
use crate::types::C32;

/// The longest block of a session with long blocks, in samples.
const LONGEST: usize = 40_000;
/// A signal's block up to this length is new in each sample.
const FRESH: usize = 4_096;
/// A longer one is made new up to this length.
const VARIED: usize = 100_000;

/// Any signal; for a carrier also one of its constellation, a little off in phase and frequency, so
/// that the loop finds lock.
pub fn signal(random: &mut Random, lane: Lane, sps: f64) -> Signal {
    if !lane.kind.has_carrier() || random.chance(0.6) {
        return Signal::new(random, sps);
    }
    let order = lane.points.psk_order();
    let order = order.expect("a constellation on the circle");
    let turn = random.between(-0.03, 0.03);
    let turn_step = random.pick(&[0.0, 0.001, -0.001, 0.01]) / sps;
    Signal::ordinary(order as usize, sps).carried(turn, turn_step)
}

/// A block's length in samples.
pub fn length(random: &mut Random, kind: Kind, long: bool, position: usize, sps: f64) -> usize {
    if long && random.chance(0.6) {
        return random.up_to(LONGEST);
    }
    if kind.has_timing() {
        timing::block_length(random, position, sps)
    } else {
        carrier::block_length(random)
    }
}

/// The places of a call, in samples.
pub fn places(random: &mut Random, kind: Kind, long: bool, length: usize, sps: f64) -> usize {
    if !kind.has_timing() {
        return carrier::output_places(random, length);
    }
    if long && random.chance(0.8) {
        // The spacing is at least 0.95 × sps, and a step takes off a quarter of it at most.
        return (length as f64 / sps * 1.5) as usize + 4;
    }
    timing::output_places(random, length, sps)
}

/// New samples, as f32: the signal goes on; or there are odd values alone, or points on the axes and
/// the diagonals.
pub fn samples(random: &mut Random, kind: Kind, signal: &mut Signal, length: usize) -> Vec<f32> {
    let part: fn(&mut Random) -> f32 = match random.up_to(19) {
        0..2 if length <= FRESH => odd_value,
        2 if length <= FRESH => |random| random.pick(&[0.0, -0.0, 1.0, -1.0]),
        _ => {
            let block = from_signal(random, kind, signal, length);
            return varied(random, block);
        }
    };
    let count = length * kind.parts();
    (0..count).map(|_| part(random)).collect()
}

fn from_signal(random: &mut Random, kind: Kind, signal: &mut Signal, length: usize) -> Vec<f32> {
    if kind == Kind::Real {
        signal.block(random, length)
    } else {
        parts::<C32>(&signal.block(random, length)).to_vec()
    }
}

/// A long block repeats pieces of its beginning. Here each part gets a factor of its own, near 1.
fn varied(random: &mut Random, mut floats: Vec<f32>) -> Vec<f32> {
    if (FRESH..VARIED).contains(&floats.len()) {
        for part in &mut floats {
            let some = (random.bits32() >> 8) as f32 / (1 << 24) as f32;
            *part *= 1.0 + (some - 0.5) / 32.0;
        }
    }
    floats
}

/// A call that is refused: an f32 is left over in a buffer or in several, or two buffers that must be
/// even are not, or both.
pub fn refused(random: &mut Random, kind: Kind) -> Run {
    let samples = random.pick(&[0, 0, 1, 2, 3, 5, 30]);
    let other = random.pick(&[0, 1, 2, 3, 5, 30]);
    let [mut input, mut strobes, mut places] = match kind {
        Kind::Receiver => [samples, other, other],
        Kind::Carrier => [samples, 0, samples],
        Kind::Real | Kind::Complex => [samples, 0, other],
    }
    .map(|count| 2 * count);
    let uneven = kind.has_carrier() && random.chance(0.5);
    if uneven {
        let more = 2 + 2 * random.up_to(4);
        match random.up_to(1) {
            0 if kind == Kind::Receiver => strobes += more,
            0 => input += more,
            _ => places += more,
        }
    }
    if !uneven || random.chance(0.5) {
        let buffers = 1 + random.up_to(if kind == Kind::Receiver { 6 } else { 2 });
        input += buffers & 1;
        places += (buffers >> 1) & 1;
        strobes += buffers >> 2;
    }
    let input = (0..input).map(|_| odd_value(random)).collect();
    Run::new(input, strobes, places)
}
