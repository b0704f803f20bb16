//! The recorded tapes, of all kinds.

use std::collections::HashSet;

use super::commands::tape;
use super::maker::{self, LEAST, Shape};
use super::usual::{carrier, timing};
use super::{cases, damage, odd, orders, set_ups};
use crate::kernels::costas::CostasConstellation;
use crate::kernels::symbol_sync::Ted;
use crate::random::Random;

/// The random numbers are the same every time.
const SEED: u64 = 20_261_119;

/// Random tapes: so many ordinary ones, so many with odd values, and so many of each that are spoilt.
const ORDINARY: usize = 220;
const ODD: usize = 260;
const SPOILT: usize = 100;
/// The share of set-ups and blocks with odd values, where there are any.
const SHARE: f64 = 0.2;

/// Tapes in a row, none of them twice.
#[derive(Default)]
pub struct Tapes {
    list: Vec<Vec<u8>>,
    seen: HashSet<Vec<u8>>,
}

impl Tapes {
    /// Adds a tape, unless it is there.
    pub fn add(&mut self, tape: Vec<u8>) {
        if self.seen.insert(tape.clone()) {
            self.list.push(tape);
        }
    }

    fn add_all(&mut self, tapes: impl IntoIterator<Item = Vec<u8>>) {
        for tape in tapes {
            self.add(tape);
        }
    }
}

/// All tapes, in order.
pub fn tapes() -> Vec<Vec<u8>> {
    let mut random = Random::new(SEED);
    let mut tapes = Tapes::default();
    cases::record(&mut tapes);
    orders::record(&mut tapes, &mut random);
    set_ups::record(&mut tapes, &mut random);
    odd::record(&mut tapes);
    for _ in 0..ORDINARY {
        tapes.add(some_tape(&mut random, 0.0));
    }
    for _ in 0..ODD {
        tapes.add(some_tape(&mut random, SHARE));
    }
    damaged(&mut tapes, &mut random);
    tapes.list
}

/// A random tape of some hundred bytes.
fn some_tape(random: &mut Random, odd: f64) -> Vec<u8> {
    let shape = Shape {
        room: LEAST + random.up_to(280),
        block: 16,
        odd,
    };
    maker::tape(random, shape)
}

/// Tapes with each value in a byte, or each bit turned over; tapes that are cut; and tapes that are spoilt at
/// random.
fn damaged(tapes: &mut Tapes, random: &mut Random) {
    for tape in [
        &[0x01, 0x02][..],
        &[0x02, 0x01],
        &[0x03, 0x00, 0x08],
        &[0x04],
    ] {
        for place in 0..tape.len() {
            tapes.add_all(damage::values(tape, place));
        }
    }
    let carrier = carrier(CostasConstellation::Qpsk);
    let timing = timing(Ted::Gardner);
    for set_up in [&carrier, &timing] {
        tapes.add_all(damage::bits(&set_up.bytes()));
    }
    let both = tape(&[carrier, timing]);
    let reset = [&both[..], &[0x04]].concat();
    tapes.add_all(damage::values(&reset, both.len()));
    for tape in [orders::every_command(), some_tape(random, SHARE)] {
        tapes.add_all(damage::prefixes(&tape));
    }
    for odd in [0.0, SHARE] {
        for _ in 0..SPOILT {
            let tape = some_tape(random, odd);
            tapes.add(damage::spoilt(random, &tape));
        }
    }
}
