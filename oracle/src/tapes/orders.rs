//! Tapes made by hand: set-ups in every order, and long blocks.

use super::commands::{Command, tape};
use super::model::MOST;
use super::recorded::Tapes;
use super::usual::{PACE, carrier, other_carrier, other_timing, ramp, timing};
use crate::carrier_runs::CONSTELLATIONS;
use crate::kernels::costas::CostasConstellation;
use crate::kernels::symbol_sync::Ted;
use crate::random::Random;
use crate::receiver_runs::{DETECTORS, signal_of};
use crate::runs;
use crate::signal::odd_value;
use crate::types::C32;

/// The samples of a short block.
const BLOCK: usize = 12;
/// Samples with odd values in a long one.
const ODD: usize = 20;

pub fn record(tapes: &mut Tapes, random: &mut Random) {
    for detector in DETECTORS {
        for points in CONSTELLATIONS {
            set_ups(tapes, random, detector, points);
        }
    }
    blocks(tapes, random);
    most_symbols(tapes);
}

/// A short tape with every command, two of them again.
pub fn every_command() -> Vec<u8> {
    let (t, c) = (timing(Ted::Gardner), carrier(CostasConstellation::Qpsk));
    let d = other_carrier(CostasConstellation::Qpsk);
    tape(&[t, c, ramp(5), d, ramp(3), Command::Reset, ramp(4)])
}

/// Set-ups in every order, repeated before samples and behind them, with other values and with the same;
/// resets before and behind them.
fn set_ups(tapes: &mut Tapes, random: &mut Random, detector: Ted, points: CostasConstellation) {
    let (t, u) = (&timing(detector), &other_timing(detector));
    let (c, d) = (&carrier(points), &other_carrier(points));
    let mut signal = signal_of(points, PACE);
    let mut block = || Command::Samples(signal.block(random, BLOCK));
    let (x, y, z) = (&block(), &block(), &block());
    let r = &Command::Reset;
    for list in [
        &[t, c, x][..],
        &[c, t, x],
        &[t, u, c, x],
        &[c, d, t, x],
        &[t, u, t, c, x],
        &[t, c, u, x],
        &[c, t, d, x],
        &[t, c, x, u, y],
        &[t, c, x, d, y],
        &[c, t, x, t, y],
        &[c, t, x, c, y],
        &[t, c, x, u, d, y],
        &[c, t, x, d, u, y],
        &[t, c, x, u, y, d, z],
        &[t, c, x, u, u, y],
        &[t, c, r, x],
        &[t, c, x, r, y],
        &[c, t, x, r, r, y],
        &[t, c, x, u, r, y],
        &[t, c, x, d, r, y],
        &[t, c, x, r, u, y],
        &[c, t, x, y, r, d, z],
    ] {
        tapes.add(list.iter().flat_map(|command| command.bytes()).collect());
    }
}

/// Long blocks and one sample more: the most samples, one fewer, and odd values among them.
fn blocks(tapes: &mut Tapes, random: &mut Random) {
    let (g, m) = (Ted::Gardner, Ted::MuellerMuller);
    let [b, q, _] = CONSTELLATIONS;
    for (detector, points, sps, count, odd) in [
        (g, q, 8.0, MOST, 0),
        (m, b, 4.1, MOST - 1, 0),
        (m, q, 16.0, MOST, ODD),
    ] {
        let mut signal = signal_of(points, sps);
        let mut block: Vec<C32> = signal.block(random, count);
        for _ in 0..odd {
            let place = random.up_to(count - 1);
            block[place] = C32::new(odd_value(random), odd_value(random));
        }
        let [block, one] = [block, signal.block(random, 1)].map(Command::Samples);
        tapes.add(tape(&[wide(detector, sps), carrier(points), block, one]));
    }
}

/// About the most symbols that a command can have: a ramp drives Gardner's loop to the narrowest spacing, and
/// each step as far back as it may go.
fn most_symbols(tapes: &mut Tapes) {
    let ramp = (1..=MOST).map(|n| C32::new(n as f32, 0.0)).collect();
    let carrier = carrier(CostasConstellation::Psk8);
    tapes.add(tape(&[
        wide(Ted::Gardner, 2.0),
        carrier,
        Command::Samples(ramp),
    ]));
}

/// A timing loop that may deviate as far as any.
fn wide(detector: Ted, sps: f64) -> Command {
    Command::Timing(runs::Values {
        sps,
        deviation: 0.05,
        ..runs::ordinary(detector)
    })
}
