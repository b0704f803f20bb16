//! The recorded answers of the timing loop, for the replay of the ported one: set-ups, runs and
//! resets, with the whole state after each. README.md describes the lines.

use crate::bits::{Parts, SENTINEL, bits64, fresh_output};
use crate::error::Error;
use crate::fields::ted_code;
use crate::kernels::symbol_sync::{SymbolSync, SymbolSyncState, Ted};
use crate::play::Kernel;
use crate::random::Random;
use crate::script::{Script, agreed, flat, halves, number};
use crate::signal::Signal;
use crate::states;
use crate::types::C32;
use crate::{Fallback, Reference, timing::Progress};

mod chains;
mod set_ups;

pub use chains::{DEVIATIONS, GAINS, LENGTHS, LONGEST, PACES, PLACES};
pub use set_ups::{listed, ordinary};

/// The random numbers are the same every time.
const SEED: u64 = 20_261_116;

/// All lines. Both implementations must give the same.
pub fn recorded() -> String {
    agreed(recorded_by(Fallback), &recorded_by(Reference))
}

/// The set-ups, then the cases X13 to X17 of docs/SPECIFICATION.md, short chains of calls, and random ones.
fn recorded_by<K: Kernel>(kernel: K) -> String {
    let mut random = Random::new(SEED);
    let script = Script::default();
    let mut recorder = Recorder { kernel, script };
    for detector in [Ted::Gardner, Ted::MuellerMuller] {
        set_ups::record::<f32, K>(&mut recorder, detector);
        set_ups::record::<C32, K>(&mut recorder, detector);
    }
    chains::cases(&mut recorder);
    for detector in [Ted::Gardner, Ted::MuellerMuller] {
        chains::record::<f32, K>(&mut recorder, &mut random, detector);
        chains::record::<C32, K>(&mut recorder, &mut random, detector);
    }
    recorder.script.into_text()
}

/// The six values of a set-up.
#[derive(Clone, Copy, Debug)]
pub struct Values {
    pub sps: f64,
    pub detector: Ted,
    pub bandwidth: f64,
    pub damping: f64,
    pub deviation: f64,
    pub gain: f64,
}

impl Values {
    /// What the original makes of them.
    pub fn set_up<T: Parts>(self) -> Result<SymbolSyncState<T>, Error> {
        SymbolSyncState::new(
            self.sps,
            self.detector,
            self.bandwidth,
            self.damping,
            self.deviation,
            self.gain,
        )
    }
}

/// Records what an implementation answers.
struct Recorder<K> {
    kernel: K,
    script: Script,
}

impl<K> Recorder<K> {
    /// A set-up; gives its state if it is accepted.
    fn set_up<T: Parts>(&mut self, values: Values) -> Option<SymbolSyncState<T>> {
        let Values {
            sps,
            detector,
            bandwidth,
            damping,
            deviation,
            gain,
        } = values;
        let made = values.set_up::<T>();
        let kind = T::COUNT as u64 - 1;
        let all = kind + 2 * u64::from(ted_code(detector)) + 16 * number(&made);
        self.script
            .line('v', bits64(sps), bits64(bandwidth), bits64(damping));
        self.script.line('n', bits64(deviation), bits64(gain), all);
        let state = made.ok()?;
        states::timing(&mut self.script, &state);
        Some(state)
    }

    /// A run; gives the samples consumed.
    fn run<T: Parts>(&mut self, s: &mut SymbolSyncState<T>, input: &[T], places: usize) -> usize
    where
        K: SymbolSync<T>,
    {
        let mut output = fresh_output(places);
        let ran = self.kernel.symbol_sync(s, input, &mut output);
        let Progress { consumed, produced } = ran.expect("no run is refused");
        let lengths = halves(input.len() * T::COUNT, places * T::COUNT);
        self.script.input(&flat(input));
        self.script
            .line('r', lengths, halves(consumed, produced), 0);
        self.script.output(&flat(&output));
        states::timing(&mut self.script, s);
        consumed
    }

    /// A complex run that is refused with number 8 (E8): one f32 of the input, or of the output, is left
    /// over. The original lends whole samples and has no such call.
    fn odd_run<T: Parts>(&mut self, s: &SymbolSyncState<T>, floats: &[f32], places: usize) {
        self.script.input(floats);
        self.script.line('r', halves(floats.len(), places), 0, 8);
        self.script.output(&vec![SENTINEL; places]);
        states::timing(&mut self.script, s);
    }

    fn reset<T: Parts>(&mut self, s: &mut SymbolSyncState<T>) {
        s.reset();
        self.script.line('z', 0, 0, 0);
        states::timing(&mut self.script, s);
    }
}

/// A signal's samples, so many for each symbol.
fn signal<T: Parts>(random: &mut Random, sps: f64, length: usize) -> Vec<T> {
    Signal::new(random, sps).block(random, length)
}

#[cfg(test)]
mod tests;
