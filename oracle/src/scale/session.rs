//! A random session: which operation comes next. It depends on the seed and the session's index alone,
//! and on what the original answers.

use super::blocks;
use super::lanes::{Kind, Lane};
use super::ops::{Op, Run};
use super::set_ups::{beside, inside};
use super::sheet::Sheet;
use crate::floats::doubles::odd_double;
use crate::random::Random;
use crate::signal::Signal;

/// The share of sessions in which `Reference` is compared too.
const REFERENCE: f64 = 1.0 / 16.0;
/// The share of sessions with long blocks.
const LONG: f64 = 0.03;
/// A session ends after so many calls or samples.
const CALLS: usize = 400;
const SAMPLES: usize = 3_000_000;

/// A session, as far as it has come.
pub struct Session {
    pub lane: Lane,
    pub with_reference: bool,
    random: Random,
    /// Whether blocks are long.
    long: bool,
    /// The set-ups to come whose values may be out of range, and whether the last one was such.
    trials: usize,
    trial: bool,
    /// Whether there is a state that the session goes on with.
    open: bool,
    signal: Signal,
    /// What was not consumed and comes again.
    rest: Vec<f32>,
    /// Of the present state: samples for each symbol, the position, the largest frequency.
    sps: f64,
    position: usize,
    edge: f64,
    /// How much there still is to come.
    calls: usize,
    samples: usize,
    symbols: usize,
}

impl Session {
    pub fn new(seed: u64, index: u64) -> Self {
        let mut random = Random::new(Random::new(Random::new(seed).bits() ^ index).bits());
        let long = random.chance(LONG);
        let trials = random.pick(&[0, 0, 0, 1, 2]);
        let lane = Lane::of(index);
        let symbols = match lane.kind {
            _ if long => 10_000 + random.up_to(40_000),
            Kind::Carrier => 100 + random.up_to(2_000),
            _ => 50 + random.up_to(700),
        };
        Self {
            lane,
            with_reference: random.chance(REFERENCE),
            long,
            trials,
            trial: false,
            open: false,
            signal: blocks::signal(&mut random, lane, 1.0),
            rest: Vec::new(),
            sps: 1.0,
            position: 0,
            edge: 0.0,
            calls: CALLS,
            samples: SAMPLES,
            symbols,
            random,
        }
    }

    /// The next operation, by what `Fallback` shows after the last one; none at the end.
    pub fn next(&mut self, last: Option<&Op>, seen: &Sheet) -> Option<Op> {
        self.note(last, seen);
        if self.trials > 0 {
            self.trials -= 1;
            return Some(self.trial());
        }
        if !self.open {
            self.trial = false;
            return Some(Op::SetUp(inside(&mut self.random, self.lane)));
        }
        if self.calls == 0 || self.samples == 0 || self.symbols == 0 {
            return None;
        }
        Some(match self.random.up_to(99) {
            0..12 => self.between(),
            _ => self.call(),
        })
    }

    /// A set-up whose values may be out of range.
    fn trial(&mut self) -> Op {
        self.trial = true;
        Op::SetUp(beside(&mut self.random, self.lane))
    }

    /// Takes note of what came of the last operation.
    fn note(&mut self, last: Option<&Op>, seen: &Sheet) {
        let accepted = seen.found("number").unwrap_or(0) == 0;
        match last {
            Some(Op::SetUp(_)) if accepted => {
                self.open = !self.trial || self.random.chance(0.5);
                self.sps = seen.float("sps").unwrap_or(1.0);
                self.rest.clear();
                self.signal = blocks::signal(&mut self.random, self.lane, self.sps);
            }
            // The record that it came with is none.
            Some(Op::SetUp(_)) => return,
            Some(Op::Run(run)) if accepted => self.called(run, seen),
            _ => {}
        }
        self.position = seen.found("i").unwrap_or(self.position);
        self.edge = seen.float("max").unwrap_or(self.edge);
    }

    /// A call went well. Mostly the caller hands in again what was not consumed.
    fn called(&mut self, run: &Run, seen: &Sheet) {
        let parts = self.lane.kind.parts();
        let consumed = seen.found("consumed").unwrap_or(0) * parts;
        let produced = seen.found("produced").unwrap_or(0);
        self.samples = self.samples.saturating_sub(run.input.len() / parts);
        self.symbols = self.symbols.saturating_sub(produced);
        self.rest.clear();
        if self.random.chance(0.9) {
            self.rest.extend_from_slice(&run.input[consumed..]);
        }
    }

    /// A reset, a setter, a set-up, or a call that is refused; if the loop has no such thing, a call.
    fn between(&mut self) -> Op {
        let random = &mut self.random;
        let kind = self.lane.kind;
        match random.up_to(24) {
            0..3 => Op::Reset,
            3 => self.trial(),
            4..9 if kind.has_carrier() => {
                let quarter = (random.up_to(3) as u32) << 30;
                let any = random.bits32();
                Op::Phase(random.pick(&[quarter, any, any, 0xffff_ffff, 0x000f_ffff]))
            }
            9..14 if kind == Kind::Carrier => Op::Frequency(self.frequency()),
            9 if kind == Kind::Receiver => {
                let beside = random.up_to(40) as u64;
                let old = u64::from(u32::MAX);
                Op::Count(random.pick(&[
                    old - beside,
                    old - beside,
                    old + beside,
                    u64::MAX - beside,
                ]))
            }
            10..13 if kind == Kind::Receiver => Op::Convert,
            14.. if kind != Kind::Real => {
                self.calls -= 1;
                Op::Run(blocks::refused(random, kind))
            }
            _ => self.call(),
        }
    }

    /// A frequency: around the limit, inside it, or odd.
    fn frequency(&mut self) -> f64 {
        let random = &mut self.random;
        let (some, odd) = (random.between(-0.3, 0.3), odd_double(random));
        let beside = random.pick(&[self.edge.next_down(), self.edge.next_up()]);
        let tiny = random.scaled(1e-46, 1e-28);
        random.pick(&[some, some, odd, odd, self.edge, -self.edge, beside, tiny])
    }

    /// A sample call.
    fn call(&mut self) -> Op {
        self.calls -= 1;
        let kind = self.lane.kind;
        let random = &mut self.random;
        if random.chance(0.03) {
            self.signal = blocks::signal(random, self.lane, self.sps);
        }
        let length = blocks::length(random, kind, self.long, self.position, self.sps);
        let length = length.min(self.samples);
        let mut input = std::mem::take(&mut self.rest);
        input.truncate(length * kind.parts());
        let more = length - input.len() / kind.parts();
        input.extend(blocks::samples(random, kind, &mut self.signal, more));
        let places = blocks::places(random, kind, self.long, length, self.sps) * kind.parts();
        let strobes = if kind == Kind::Receiver { places } else { 0 };
        Op::Run(Run::new(input, strobes, places))
    }
}
