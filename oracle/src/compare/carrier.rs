//! Sessions of the carrier loop.

use std::f64::consts::FRAC_1_SQRT_2;

use crate::bits::fresh_output;
use crate::carrier_runs::Values;
use crate::kernels::costas::{Costas, CostasConstellation, CostasState};
use crate::random::Random;
use crate::refusal;
use crate::signal::{Signal, odd_value};
use crate::types::C32;
use crate::{Fallback, Reference};

use super::tally::Tally;

const SESSION_CALLS: usize = 400;

/// Sessions until there are enough symbols.
pub fn sessions(
    random: &mut Random,
    name: &'static str,
    points: CostasConstellation,
    enough: u64,
) -> Tally {
    let mut tally = Tally::new(name);
    while tally.symbols < enough {
        let made = values(random, points).set_up();
        let state = made.expect("values inside their ranges");
        session(random, &mut tally, state);
    }
    tally
}

/// Random values, each range's ends among them.
pub fn values(random: &mut Random, points: CostasConstellation) -> Values {
    let bandwidth = [0.0001, 0.2, 0.02, random.scaled(0.0001, 0.2)];
    let damping = [0.1, 4.0, FRAC_1_SQRT_2, random.between(0.1, 4.0)];
    let offset = [
        0.0,
        -0.0,
        5e-324,
        1e-31,
        1e-30,
        0.05,
        0.25,
        random.scaled(1e-6, 0.25),
    ];
    Values {
        points,
        bandwidth: random.pick(&bandwidth),
        damping: random.pick(&damping),
        offset: random.pick(&offset),
    }
}

fn session(random: &mut Random, tally: &mut Tally, fresh: CostasState) {
    let (mut a, mut b) = (fresh, fresh);
    let period = random.pick(&[1.0, 1.0, 1.0, 2.5]);
    let mut signal = Signal::new(random, period);
    let end = tally.symbols + 50 + random.up_to(700) as u64;
    tally.sessions += 1;
    for _ in 0..SESSION_CALLS {
        if tally.symbols >= end {
            break;
        }
        set_something(random, tally, &fresh, &mut a, &mut b);
        if random.chance(0.03) {
            signal = Signal::new(random, period);
        }
        let length = block_length(random);
        let input = signal.block(random, length);
        let places = output_places(random, length);
        call(tally, &mut a, &mut b, &input, places);
    }
}

pub fn block_length(random: &mut Random) -> usize {
    match random.up_to(99) {
        0..55 => random.up_to(8),
        55..90 => random.up_to(64),
        90..99 => random.up_to(300),
        _ => random.up_to(4_000),
    }
}

/// As many places as samples, now and then another count.
pub fn output_places(random: &mut Random, length: usize) -> usize {
    if random.chance(0.97) {
        length
    } else {
        random.up_to(length + 2)
    }
}

/// Now and then a reset or a setter.
fn set_something(
    random: &mut Random,
    tally: &mut Tally,
    fresh: &CostasState,
    a: &mut CostasState,
    b: &mut CostasState,
) {
    match random.up_to(49) {
        0 => {
            a.reset();
            b.reset();
            tally.compare_states(a, fresh);
        }
        1 | 2 => {
            let quarter = (random.up_to(3) as u32) << 30;
            let any = random.bits32();
            let phase = random.pick(&[quarter, any, 0xffff_ffff, 0x000f_ffff]);
            a.set_phase(phase);
            b.set_phase(phase);
        }
        3 | 4 => {
            let odd = f64::from(odd_value(random));
            let some = random.between(-0.3, 0.3);
            let edge = f64::from(a.max);
            let frequency = random.pick(&[some, odd, edge, -edge, 5e-324, f64::MAX, f64::NAN]);
            a.set_frequency(frequency);
            b.set_frequency(frequency);
        }
        _ => {}
    }
    check(tally, a);
}

/// One call of both, compared.
fn call(tally: &mut Tally, a: &mut CostasState, b: &mut CostasState, input: &[C32], places: usize) {
    let before = *a;
    let (mut out_a, mut out_b) = (fresh_output(places), fresh_output(places));
    let first = Fallback.costas(a, input, &mut out_a);
    let second = Reference.costas(b, input, &mut out_b);
    tally.calls += 1;
    tally.count_input(input);
    tally.compare_answers(&first, &second);
    tally.compare_buffers(&out_a, &out_b);
    tally.compare_states(a, b);
    match &first {
        Ok(()) => {
            tally.must(input.len() == places, "uneven buffers were accepted");
            tally.symbols += input.len() as u64;
        }
        Err(error) => {
            let number = refusal::number(error);
            tally.refused_runs += u64::from(number == Some(7));
            tally.internal += u64::from(number.is_none());
            tally.must(input.len() != places, "even buffers were refused");
            tally.must_be_unwritten(&out_a);
            tally.compare_states(a, &before);
        }
    }
    check(tally, a);
}

/// What must hold of every state (C22 of docs/SPECIFICATION.md); and the level is finite.
fn check(tally: &mut Tally, state: &CostasState) {
    tally.must(state.freq.abs() <= state.max, "the frequency");
    tally.must(state.level.is_finite(), "the level");
    tally.largest_level = tally.largest_level.max(state.level.abs());
}
