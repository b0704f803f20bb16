//! Random tapes: set-ups in any order, blocks of a signal, set-ups again and resets between them.

use super::commands::{self, Command};
use super::model::MOST;
use crate::carrier_runs::{self, CONSTELLATIONS};
use crate::compare;
use crate::floats::doubles::odd_double;
use crate::kernels::costas::CostasConstellation;
use crate::random::Random;
use crate::receiver_runs::DETECTORS;
use crate::runs;
use crate::signal::{Signal, odd_value};
use crate::types::C32;

/// Paces that take the place of most of those at which a block would have few symbols.
const PACES: [f64; 7] = [2.0, 2.0000000000000004, 2.3, 2.5, 3.0, 4.0, 4.1];
/// A block should have so many symbols.
const SYMBOLS: f64 = 6.0;
/// The share of slow paces that stay.
const SLOW: f64 = 0.05;
/// The shares of tapes that repeat a set-up before the first samples, and that lack one.
const REPEATED: f64 = 0.15;
const LACKING: f64 = 0.03;
/// The share of tapes whose last command is cut, where it would not fit.
const CUT: f64 = 0.15;

/// The bytes of the longest start, three set-ups. A tape has room for it.
pub const LEAST: usize = 110;

/// What a tape is like.
#[derive(Clone, Copy, Debug)]
pub struct Shape {
    /// Its bytes, at most; not fewer than `LEAST`.
    pub room: usize,
    /// The samples of a command, at most.
    pub block: usize,
    /// The share of set-ups and blocks with odd values. If it is 0, signals are ordinary ones.
    pub odd: f64,
}

/// A random tape.
pub fn tape(random: &mut Random, shape: Shape) -> Vec<u8> {
    let mut maker = Maker::new(random, shape);
    let mut tape = commands::tape(&maker.start());
    loop {
        let whole = tape.len();
        tape.extend(maker.next().bytes());
        if tape.len() > shape.room {
            let cut = maker.random.chance(CUT);
            tape.truncate(if cut { shape.room } else { whole });
            return tape;
        }
    }
}

/// Makes commands, one after the other.
struct Maker<'a> {
    random: &'a mut Random,
    shape: Shape,
    points: CostasConstellation,
    sps: f64,
    signal: Signal,
}

impl<'a> Maker<'a> {
    fn new(random: &'a mut Random, shape: Shape) -> Self {
        Self {
            random,
            shape,
            points: CostasConstellation::Bpsk,
            sps: 1.0,
            signal: Signal::ordinary(0, 1.0),
        }
    }

    /// Both set-ups in any order. Now and then one comes twice, or one is not there.
    fn start(&mut self) -> Vec<Command> {
        let mut list = vec![self.carrier(), self.timing()];
        if self.random.chance(0.5) {
            list.reverse();
        }
        if self.random.chance(REPEATED) {
            let again = self.set_up();
            list.insert(self.random.up_to(2), again);
        } else if self.random.chance(LACKING) {
            list.remove(self.random.up_to(1));
        }
        list
    }

    fn next(&mut self) -> Command {
        match self.random.up_to(15) {
            0 | 1 => self.set_up(),
            2 => Command::Reset,
            _ => Command::Samples(self.samples()),
        }
    }

    fn set_up(&mut self) -> Command {
        if self.random.chance(0.5) {
            self.carrier()
        } else {
            self.timing()
        }
    }

    fn carrier(&mut self) -> Command {
        let odd = self.odd();
        let random = &mut *self.random;
        self.points = random.pick(&CONSTELLATIONS);
        let mut values = compare::carrier::values(random, self.points);
        if odd {
            if random.chance(0.5) {
                values = random.pick(&carrier_runs::listed(self.points));
            } else {
                let v = &mut values;
                let places = [&mut v.bandwidth, &mut v.damping, &mut v.offset];
                *one_of(random, places) = odd_double(random);
            }
        }
        Command::Carrier(values)
    }

    /// The signal begins anew, at the new pace.
    fn timing(&mut self) -> Command {
        let odd = self.odd();
        let random = &mut *self.random;
        let detector = random.pick(&DETECTORS);
        let mut values = compare::timing::values(random, detector);
        let slow = values.sps > self.shape.block as f64 / SYMBOLS;
        if slow && !random.chance(SLOW) {
            values.sps = random.pick(&PACES);
        }
        self.sps = values.sps;
        if odd {
            if random.chance(0.5) {
                values = random.pick(&runs::listed(detector));
            } else {
                let v = &mut values;
                let [a, b, c] = [&mut v.sps, &mut v.bandwidth, &mut v.damping];
                let places = [a, b, c, &mut v.deviation, &mut v.gain];
                *one_of(random, places) = odd_double(random);
            }
        }
        self.signal = self.new_signal();
        Command::Timing(values)
    }

    /// Whether the next set-up or block has odd values.
    fn odd(&mut self) -> bool {
        self.random.chance(self.shape.odd)
    }

    /// A signal that the loops can lock to; or any.
    fn new_signal(&mut self) -> Signal {
        let random = &mut *self.random;
        if self.shape.odd > 0.0 && random.chance(0.5) {
            return Signal::new(random, self.sps);
        }
        let order = self.points.psk_order();
        let order = order.expect("a constellation on the circle");
        let turn = random.unit();
        let turn_step = random.pick(&[0.0, 0.001, -0.001, 0.01]) / self.sps;
        Signal::ordinary(order as usize, self.sps).carried(turn, turn_step)
    }

    /// The signal goes on; or there are odd values alone, or points on the axes and the diagonals.
    fn samples(&mut self) -> Vec<C32> {
        let (odd, block) = (self.odd(), self.shape.block);
        let random = &mut *self.random;
        let few = random.up_to(block.min(8));
        let some = random.up_to(block);
        let length = random.pick(&[few, some, some, block]).min(MOST);
        if !odd {
            return self.signal.block(random, length);
        }
        let part: fn(&mut Random) -> f32 = match random.up_to(2) {
            0 => |random| random.pick(&[0.0, -0.0, 1.0, -1.0]),
            _ => odd_value,
        };
        (0..length)
            .map(|_| C32::new(part(random), part(random)))
            .collect()
    }
}

/// One of some places.
fn one_of<'a, const N: usize>(random: &mut Random, places: [&'a mut f64; N]) -> &'a mut f64 {
    let at = random.up_to(N - 1);
    places.into_iter().nth(at).expect("a place of the list")
}
