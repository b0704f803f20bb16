//! Random tapes for a comparison at scale, one after the other.

use std::collections::VecDeque;

use super::damage;
use super::frames::LONGEST;
use super::maker::{LEAST, Shape, tape};
use super::model::MOST;
use crate::random::Random;

/// The shares of families with all prefixes of a short tape, and with all values of one of its bytes.
const PREFIXES: f64 = 0.002;
const VALUES: f64 = 0.002;
/// Of the families with one tape, the share of long ones, and the share of those that are spoilt.
const LONG: f64 = 0.03;
const SPOILT: f64 = 0.2;
/// The most bytes of a short tape, and the most samples of its commands.
const SHORT: usize = 400;
const BLOCK: usize = 24;
/// The least bytes of a long one, and the most samples of its commands.
const ROOM: usize = 8_192;
const BLOCKS: [usize; 4] = [MOST, MOST, 300, 60];

/// Tapes without end, family by family.
pub struct Stream {
    seed: u64,
    family: u64,
    /// The tapes of the present family that are still to come.
    tapes: VecDeque<Vec<u8>>,
}

impl Stream {
    pub fn new(seed: u64) -> Self {
        Self {
            seed,
            family: 0,
            tapes: VecDeque::new(),
        }
    }
}

impl Iterator for Stream {
    type Item = Vec<u8>;

    fn next(&mut self) -> Option<Vec<u8>> {
        while self.tapes.is_empty() {
            self.tapes = family(self.seed, self.family).into();
            self.family += 1;
        }
        self.tapes.pop_front()
    }
}

/// One tape, or all that is made of one. It depends on the seed and the index alone.
fn family(seed: u64, index: u64) -> Vec<Vec<u8>> {
    let random = &mut Random::new(Random::new(Random::new(seed).bits() ^ index).bits());
    if random.chance(PREFIXES) {
        let tape = short(random);
        return damage::prefixes(&tape).collect();
    }
    if random.chance(VALUES) {
        let tape = short(random);
        let place = random.up_to(tape.len() - 1);
        // Every second time in the set-ups, or in the command behind them.
        let front = place.min(random.up_to(LEAST));
        return damage::values(&tape, random.pick(&[place, front])).collect();
    }
    let mut tape = if random.chance(LONG) {
        long(random)
    } else {
        short(random)
    };
    if random.chance(SPOILT) {
        tape = damage::spoilt(random, &tape);
        tape.truncate(LONGEST);
    }
    vec![tape]
}

fn short(random: &mut Random) -> Vec<u8> {
    let shape = Shape {
        room: LEAST + random.up_to(SHORT - LEAST),
        block: BLOCK,
        odd: random.pick(&[0.0, 0.0, 0.1, 0.3]),
    };
    tape(random, shape)
}

fn long(random: &mut Random) -> Vec<u8> {
    let some = ROOM + random.up_to(LONGEST - ROOM);
    let shape = Shape {
        room: random.pick(&[some, LONGEST]),
        block: random.pick(&BLOCKS),
        odd: random.pick(&[0.0, 0.0, 0.02, 0.1]),
    };
    tape(random, shape)
}
