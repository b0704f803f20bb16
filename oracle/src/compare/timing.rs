//! Sessions of the timing loop.

use std::f64::consts::FRAC_1_SQRT_2;

use crate::bits::{Parts, fresh_output};
use crate::kernels::symbol_sync::{SymbolSync, SymbolSyncState, Ted};
use crate::random::Random;
use crate::refusal;
use crate::runs::Values;
use crate::signal::Signal;
use crate::timing::Progress;
use crate::{Fallback, Reference};

use super::HIGHEST_POSITION;
use super::tally::Tally;

/// From here on a symbol is so long that blocks are chosen to reach the next one.
const LONG_SYMBOL: f64 = 500.0;
/// The longest block.
const LONGEST: f64 = 2_700_000.0;
/// A session ends after so many samples or calls.
const SESSION_SAMPLES: usize = 6_000_000;
const SESSION_CALLS: usize = 1_500;
/// The share of sessions that send the next strobe as far off as they can.
const FAR: f64 = 0.01;

/// Sessions until there are enough symbols.
pub fn sessions<T: Parts>(random: &mut Random, name: &'static str, ted: Ted, enough: u64) -> Tally
where
    Fallback: SymbolSync<T>,
    Reference: SymbolSync<T>,
{
    let mut tally = Tally::new(name);
    while tally.symbols < enough {
        let values = if random.chance(FAR) {
            far_values(random, ted)
        } else {
            values(random, ted)
        };
        match values.set_up::<T>() {
            Ok(state) => session(random, &mut tally, state),
            Err(error) => {
                tally.refused_set_ups += 1;
                // Only the gains can be out of range with these values.
                tally.must(refusal::number(&error) == Some(6), "a set-up was refused");
            }
        }
    }
    tally
}

/// Random values, each range's ends among them.
pub fn values(random: &mut Random, ted: Ted) -> Values {
    let bandwidth = [0.0001, 0.1, random.scaled(0.0001, 0.1)];
    let damping = [0.1, 4.0, FRAC_1_SQRT_2, random.between(0.1, 4.0)];
    let deviation = [0.0, -0.0, 5e-324, 0.05, 0.005, random.scaled(1e-6, 0.05)];
    let ordinary = random.scaled(0.001, 1000.0);
    let odd = random.pick(&[5e-324, 1e-300, 1e-30, 1e-12, 1e12, 1e300, f64::MAX]);
    let gain = [1.0, 1.0, 2.7, ordinary, ordinary, odd];
    Values {
        sps: pace(random),
        detector: ted,
        bandwidth: random.pick(&bandwidth),
        damping: random.pick(&damping),
        deviation: random.pick(&deviation),
        gain: random.pick(&gain),
    }
}

/// The slowest pace with the widest pull and gains that drive both into their limits.
pub fn far_values(random: &mut Random, ted: Ted) -> Values {
    Values {
        sps: 1_000_000.0,
        detector: ted,
        bandwidth: 0.1,
        damping: 1.0,
        deviation: 0.05,
        gain: random.pick(&[1e-12, 1e-6]),
    }
}

/// Samples for each symbol, over the whole range.
fn pace(random: &mut Random) -> f64 {
    match random.up_to(39) {
        0..4 => 2.0,
        4..6 => 2f64.next_up(),
        6..9 => random.scaled(2.0, 2.001),
        9..17 => random.between(2.0, 4.0),
        17..23 => random.between(4.0, 16.0),
        23..29 => random.pick(&[3.0, 4.0, 8.0, 10.0, 4.1]),
        29..32 => 48.0,
        32..36 => random.scaled(16.0, 400.0),
        36..39 => random.scaled(400.0, 1_000_000.0),
        _ => random.pick(&[1_000_000.0, 1_000_000f64.next_down()]),
    }
}

fn session<T: Parts>(random: &mut Random, tally: &mut Tally, fresh: SymbolSyncState<T>)
where
    Fallback: SymbolSync<T>,
    Reference: SymbolSync<T>,
{
    let (mut a, mut b) = (fresh, fresh);
    let mut signal = Signal::new(random, fresh.sps());
    let mut rest: Vec<T> = Vec::new();
    let mut samples = 0;
    let symbols = 50 + random.up_to(700) as u64;
    let end = tally.symbols + symbols;
    tally.sessions += 1;
    for _ in 0..SESSION_CALLS {
        if tally.symbols >= end || samples >= SESSION_SAMPLES {
            break;
        }
        if random.chance(0.01) {
            a.reset();
            b.reset();
            tally.compare_states(&a, &fresh);
        }
        if random.chance(0.02) {
            signal = Signal::new(random, fresh.sps());
        }
        let length = block_length(random, a.i, fresh.sps());
        let input = next_block(random, &mut signal, &rest, length);
        let places = output_places(random, length, fresh.sps());
        samples += length;
        let consumed = call(tally, &mut a, &mut b, &input, places);
        // Mostly the caller hands in again what was not consumed.
        rest = input[consumed..].to_vec();
        if random.chance(0.1) {
            rest.clear();
        }
    }
}

/// A block's length: short, or just around what the strobe at a position needs, or some symbols.
pub fn block_length(random: &mut Random, position: usize, sps: f64) -> usize {
    let around = (position + random.up_to(3)).saturating_sub(2);
    let some = |random: &mut Random, symbols: f64| {
        let most = (symbols * sps).min(LONGEST);
        random.up_to(most as usize)
    };
    if sps >= LONG_SYMBOL {
        return match random.up_to(9) {
            0..2 => random.up_to(8),
            2..6 => around,
            _ => some(random, 2.6),
        };
    }
    match random.up_to(19) {
        0..6 => random.up_to(8),
        6..9 => random.up_to(64),
        9..12 => around,
        12..19 => some(random, 20.0),
        _ => some(random, 200.0).min(20_000),
    }
}

/// The next block: first what was left, then new samples.
fn next_block<T: Parts>(
    random: &mut Random,
    signal: &mut Signal,
    rest: &[T],
    length: usize,
) -> Vec<T> {
    let mut block = rest[..rest.len().min(length)].to_vec();
    let more = length - block.len();
    block.extend(signal.block::<T>(random, more));
    block
}

/// Output places: few, or enough for the whole block.
pub fn output_places(random: &mut Random, length: usize, sps: f64) -> usize {
    let enough = (length as f64 / sps * 1.5) as usize + 4;
    match random.up_to(9) {
        0..2 => random.up_to(3),
        2..4 => random.up_to(16),
        4 => random.up_to(enough),
        _ => enough,
    }
}

/// One call of both, compared; gives the samples consumed.
fn call<T: Parts>(
    tally: &mut Tally,
    a: &mut SymbolSyncState<T>,
    b: &mut SymbolSyncState<T>,
    input: &[T],
    places: usize,
) -> usize
where
    Fallback: SymbolSync<T>,
    Reference: SymbolSync<T>,
{
    let (mut out_a, mut out_b) = (fresh_output(places), fresh_output(places));
    let first = Fallback.symbol_sync(a, input, &mut out_a);
    let second = Reference.symbol_sync(b, input, &mut out_b);
    tally.calls += 1;
    tally.count_input(input);
    tally.compare_answers(&first, &second);
    tally.compare_buffers(&out_a, &out_b);
    tally.compare_states(a, b);
    tally.internal += u64::from(first.is_err()) + u64::from(second.is_err());
    let progress = first.unwrap_or_default();
    tally.symbols += progress.produced as u64;
    tally.largest_position = tally.largest_position.max(a.i).max(b.i);
    check(tally, a, input, &out_a, progress);
    progress.consumed
}

/// What must hold of every answer and state (A10, T22, T23 of docs/SPECIFICATION.md).
fn check<T: Parts>(
    tally: &mut Tally,
    state: &SymbolSyncState<T>,
    input: &[T],
    output: &[T],
    progress: Progress,
) {
    let Progress { consumed, produced } = progress;
    let counts = consumed <= input.len() && produced <= output.len();
    tally.must(counts, "a count above what was lent (A10)");
    let all = produced == output.len() || consumed == input.len();
    tally.must(all, "input left although a place is left (A10)");
    tally.must_be_unwritten(&output[produced..]);
    tally.must((0.0..1.0).contains(&state.mu), "the fraction (T22)");
    let (low, high) = (state.sps - state.lim, state.sps + state.lim);
    tally.must((low..=high).contains(&state.omega), "the spacing (T22)");
    let position = (1..=HIGHEST_POSITION).contains(&state.i);
    tally.must(position, "the position between calls (T23)");
}
