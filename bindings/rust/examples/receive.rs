//! Makes a small QPSK signal that ends in silence, receives it in blocks and prints the symbol numbers. The
//! program `bindings/c/example.c` does the same and prints the same text.

use std::error::Error;
use train_receiver::{
    CarrierValues, Constellation, Detector, Receiver, Refusal, TimingValues, symbol_number,
};

/// How many symbols are sent, for how many more the channel is silent then, and how many samples each has.
const SYMBOLS: usize = 300;
const SILENT: usize = 8;
const SPS: usize = 4;

/// How many samples a call is handed at most, and how many symbols it can put out: fewer than the
/// samples have, so that some samples are handed twice.
const BLOCK: usize = 64;
const PLACES: usize = 10;

/// How many symbol numbers stand in a line.
const WIDTH: usize = 60;

/// The points in the order of their symbol numbers.
const POINTS: [(f64, f64); 4] = [(1.0, 1.0), (-1.0, 1.0), (-1.0, -1.0), (1.0, -1.0)];

/// What the carrier turns by from sample to sample: cosine and sine of 0.0005 of a turn, which is 0.002
/// of a turn a symbol.
const TURN: (f64, f64) = (0.9999950652018582, 0.0031415874858795635);

fn main() -> Result<(), Box<dyn Error>> {
    let timing = TimingValues {
        sps: SPS as f64,
        ted: Detector::Gardner,
        loop_bw: 0.01,
        damping: 1.0,
        max_deviation: 0.01,
        // Gardner's detector gain for QPSK with parts of 1 and -1 and straight transitions: 2 * 1.5
        // (docs/THEORY.md).
        ted_gain: 3.0,
    };
    let carrier = CarrierValues {
        loop_bw: 0.02,
        damping: 1.0,
        max_offset: 0.05,
    };
    let slow = TimingValues { sps: 1.5, ..timing };
    if let Err(refusal) = Receiver::set_up(Constellation::Qpsk, slow, carrier) {
        let number = refusal.number();
        println!("1.5 samples per symbol: refused with number {number}, {refusal}");
    }
    let mut receiver = Receiver::set_up(Constellation::Qpsk, timing, carrier)?;
    receive(&mut receiver, &signal())?;
    println!("{} symbols", receiver.count());
    println!("{:.4} samples per symbol", receiver.sps_estimate());
    println!("{:.5} cycles per symbol", receiver.frequency());
    let lock = if receiver.locked() {
        "locked"
    } else {
        "not locked"
    };
    println!("{lock}");

    // The record that a program of the earlier library takes, and back.
    let earlier = receiver.narrowed()?;
    receiver = earlier.widened();
    let count = receiver.count();
    println!("{count} symbols after a conversion down and up");
    Ok(())
}

/// Symbols from a small generator, with linear transitions, on a carrier that turns slowly. The first
/// sample of a transition stands 0.3 of a sample behind the instant of the symbol before. Behind them come
/// silent samples.
fn signal() -> Vec<f32> {
    let mut samples = Vec::new();
    let mut state: u32 = 1;
    let mut from = (0.0, 0.0);
    let (mut c, mut s) = (1.0, 0.0);
    for _ in 0..SYMBOLS {
        state = state.wrapping_mul(1664525).wrapping_add(1013904223);
        let to = POINTS[(state >> 30) as usize];
        for j in 0..SPS {
            let way = (j as f64 + 0.3) / SPS as f64;
            let re = from.0 + (to.0 - from.0) * way;
            let im = from.1 + (to.1 - from.1) * way;
            samples.push((re * c - im * s) as f32);
            samples.push((re * s + im * c) as f32);
            (c, s) = (c * TURN.0 - s * TURN.1, c * TURN.1 + s * TURN.0);
        }
        from = to;
    }
    samples.resize(2 * SPS * (SYMBOLS + SILENT), 0.0);
    samples
}

/// Receives the samples block by block and prints the symbol numbers, and '-' where there is none. A block
/// begins with the first sample that the last call did not consume.
fn receive(receiver: &mut Receiver, samples: &[f32]) -> Result<(), Refusal> {
    let (mut strobes, mut output) = ([0.0; 2 * PLACES], [0.0; 2 * PLACES]);
    let mut rest = samples;
    let mut column = 0;
    while !rest.is_empty() {
        let block = &rest[..rest.len().min(2 * BLOCK)];
        let progress = receiver.receive(block, &mut strobes, &mut output)?;
        for symbol in output[..2 * progress.produced].chunks_exact(2) {
            match symbol_number(Constellation::Qpsk, symbol[0], symbol[1]) {
                Some(number) => print!("{number}"),
                None => print!("-"),
            }
            column += 1;
            if column == WIDTH {
                println!();
                column = 0;
            }
        }
        rest = &rest[2 * progress.consumed..];
    }
    if column > 0 {
        println!();
    }
    Ok(())
}
