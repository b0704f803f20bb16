//! The original's loops as machines.

use super::lent::{whole, whole_mut};
use super::machine::Machine;
use super::ops::SetUp;
use super::readings;
use super::sheet::Sheet;
use crate::bits::Parts;
use crate::error::Error;
use crate::fields::{constellation_code, ted_code};
use crate::kernels::costas::{CostasConstellation, CostasState};
use crate::kernels::symbol_sync::{SymbolSync, SymbolSyncState, Ted};
use crate::play::Kernel;
use crate::receiver_runs::receiver::{
    self, Answer, Receiver32, TOO_LARGE, Values, refused, symbol_code,
};
use crate::types::C32;
use crate::{Fallback, Reference, carrier_runs, refusal, runs};

/// Stands for an error that cannot occur (A11 of docs/SPECIFICATION.md). The library has no such number, so
/// that one is a difference.
const INTERNAL: u64 = 99;

/// One of the original's implementations.
pub trait Source: Kernel {
    const KERNEL: Self;
}

impl Source for Fallback {
    const KERNEL: Self = Fallback;
}

impl Source for Reference {
    const KERNEL: Self = Reference;
}

fn number(error: &Error) -> u64 {
    refusal::number(error).map_or(INTERNAL, u64::from)
}

/// Values inside their ranges.
pub fn ordinary(detector: Ted, points: CostasConstellation) -> Values {
    Values::named(runs::ordinary(detector), carrier_runs::ordinary(points))
}

/// A machine that the original sets up.
trait Made: Machine {
    fn make(values: &Values) -> Result<Self, Error>;

    /// A set-up. The record of a refused one is an ordinary one with zeros in all places.
    fn made(set_up: &SetUp, sheet: &mut Sheet) -> Option<Self> {
        let made = Self::make(&set_up.values);
        let number = made.as_ref().err().map_or(0, number);
        sheet.count("number", number as usize);
        if made.is_err() {
            let plain = ordinary(Ted::Gardner, CostasConstellation::Bpsk);
            let accepted = Self::make(&plain).expect("values inside their ranges");
            sheet.zeros(|sheet| accepted.record(sheet));
        }
        made.ok()
    }
}

/// A timing loop.
pub struct Timing<T: Parts, K> {
    state: SymbolSyncState<T>,
    kernel: K,
}

impl<T: Parts, K: Source + SymbolSync<T>> Made for Timing<T, K> {
    fn make(values: &Values) -> Result<Self, Error> {
        let kernel = K::KERNEL;
        let state = values.timing.set_up()?;
        Ok(Self { state, kernel })
    }
}

impl<T: Parts, K: Source + SymbolSync<T>> Machine for Timing<T, K> {
    fn open(set_up: &SetUp, sheet: &mut Sheet) -> Option<Self> {
        Self::made(set_up, sheet)
    }

    fn reset(&mut self) {
        self.state.reset();
    }

    fn run(&mut self, input: &[f32], _strobes: &mut [f32], output: &mut [f32]) -> Answer {
        let (Some(input), Some(output)) = (whole::<T>(input), whole_mut::<T>(output)) else {
            return refused(8);
        };
        match self.kernel.symbol_sync(&mut self.state, input, output) {
            Ok(progress) => Answer {
                number: 0,
                consumed: progress.consumed,
                produced: progress.produced,
            },
            Err(error) => refused(number(&error)),
        }
    }

    fn record(&self, sheet: &mut Sheet) {
        sheet.state(&self.state);
        sheet.count("detector code", ted_code(self.state.ted()).into());
    }

    fn readings(&self, sheet: &mut Sheet) {
        readings::put_timing(&readings::of_timing(&self.state), sheet);
    }
}

/// A carrier loop.
pub struct Carrier<K> {
    state: CostasState,
    kernel: K,
}

impl<K: Source> Made for Carrier<K> {
    fn make(values: &Values) -> Result<Self, Error> {
        let kernel = K::KERNEL;
        let state = values.carrier.set_up()?;
        Ok(Self { state, kernel })
    }
}

impl<K: Source> Machine for Carrier<K> {
    fn open(set_up: &SetUp, sheet: &mut Sheet) -> Option<Self> {
        Self::made(set_up, sheet)
    }

    fn reset(&mut self) {
        self.state.reset();
    }

    fn set_phase(&mut self, phase: u32) {
        self.state.set_phase(phase);
    }

    fn set_frequency(&mut self, frequency: f64) {
        self.state.set_frequency(frequency);
    }

    fn run(&mut self, input: &[f32], _strobes: &mut [f32], output: &mut [f32]) -> Answer {
        let (Some(input), Some(output)) = (whole::<C32>(input), whole_mut::<C32>(output)) else {
            return refused(8);
        };
        match self.kernel.costas(&mut self.state, input, output) {
            Ok(()) => all(input.len()),
            Err(error) => refused(number(&error)),
        }
    }

    fn record(&self, sheet: &mut Sheet) {
        sheet.state(&self.state);
        let code = constellation_code(self.state.constellation());
        sheet.count("constellation code", code.into());
    }

    fn readings(&self, sheet: &mut Sheet) {
        readings::put_carrier(&readings::of_carrier(&self.state), sheet);
    }
}

/// The answer of a carrier that is done, which has no counts of its own.
pub fn all(samples: usize) -> Answer {
    Answer {
        number: 0,
        consumed: samples,
        produced: samples,
    }
}

/// The fields of a receiver's loops.
fn put_loops(timing: &SymbolSyncState<C32>, carrier: &CostasState, sheet: &mut Sheet) {
    sheet.state(timing);
    sheet.count("detector code", ted_code(timing.ted()).into());
    sheet.state(carrier);
    let code = constellation_code(carrier.constellation());
    sheet.count("constellation code", code.into());
}

fn put_narrowed(old: &Receiver32, sheet: &mut Sheet) {
    put_loops(&old.timing, &old.carrier, sheet);
    sheet.count("count of 32 bits", old.count as usize);
}

/// The receiver (part R) over the original's loops.
pub struct Receiver<K> {
    receiver: receiver::Receiver,
    kernel: K,
}

impl<K: Source> Made for Receiver<K> {
    fn make(values: &Values) -> Result<Self, Error> {
        let kernel = K::KERNEL;
        let receiver = receiver::Receiver::new(*values)?;
        Ok(Self { receiver, kernel })
    }
}

impl<K: Source> Machine for Receiver<K> {
    fn open(set_up: &SetUp, sheet: &mut Sheet) -> Option<Self> {
        Self::made(set_up, sheet)
    }

    fn reset(&mut self) {
        self.receiver.reset();
    }

    fn set_phase(&mut self, phase: u32) {
        self.receiver.carrier.set_phase(phase);
    }

    fn set_count(&mut self, count: u64) {
        self.receiver.count = count;
    }

    fn convert(&mut self, sheet: &mut Sheet) {
        let Some(old) = self.receiver.narrowed() else {
            sheet.count("narrowed", TOO_LARGE as usize);
            let receiver::Receiver {
                timing, carrier, ..
            } = self.receiver;
            let count = 0;
            return sheet.zeros(|sheet| {
                put_narrowed(
                    &Receiver32 {
                        timing,
                        carrier,
                        count,
                    },
                    sheet,
                )
            });
        };
        sheet.count("narrowed", 0);
        put_narrowed(&old, sheet);
        self.receiver = old.widened();
    }

    fn run(&mut self, input: &[f32], strobes: &mut [f32], output: &mut [f32]) -> Answer {
        let ran = self.receiver.try_run(&self.kernel, input, strobes, output);
        ran.unwrap_or_else(|error| refused(number(&error)))
    }

    fn record(&self, sheet: &mut Sheet) {
        put_loops(&self.receiver.timing, &self.receiver.carrier, sheet);
        sheet.count("count", self.receiver.count as usize);
    }

    fn readings(&self, sheet: &mut Sheet) {
        let receiver = &self.receiver;
        readings::put_timing(&readings::of_timing(&receiver.timing), sheet);
        readings::put_carrier(&readings::of_carrier(&receiver.carrier), sheet);
        sheet.count("read count", receiver.count as usize);
    }

    fn symbols(&self, samples: &[f32], numbers: &mut Vec<u64>) {
        let points = self.receiver.carrier.constellation();
        let pairs = samples.chunks_exact(C32::COUNT);
        numbers.extend(pairs.map(|two| symbol_code(points, C32::new(two[0], two[1]))));
    }
}
