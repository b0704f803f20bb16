//! The recorded answers of the receiver, for the replay of the ported one: set-ups, resets, phases that
//! are set and runs, with the whole record after each; symbol numbers; and turned recordings. README.md
//! describes the lines.

use crate::bits::{SENTINEL, bits64};
use crate::carrier_runs::CONSTELLATIONS;
use crate::fields::{constellation_code, ted_code};
use crate::kernels::costas::CostasConstellation;
use crate::kernels::symbol_sync::Ted;
use crate::lines::wide;
use crate::play::Kernel;
use crate::random::Random;
use crate::script::{Script, agreed, halves, number, pair};
use crate::states;
use crate::types::C32;
use crate::{Fallback, Reference};

mod cases;
mod chains;
mod conversions;
mod library;
pub mod receiver;
mod set_ups;
mod symbols;
mod turned;

pub use chains::signal_of;
pub use set_ups::one_of_each;

use receiver::{Answer, Receiver, TOO_LARGE, Values, samples, symbol_code};

/// The random numbers are the same every time.
const SEED: u64 = 20_261_118;

/// Both detectors.
pub const DETECTORS: [Ted; 2] = [Ted::Gardner, Ted::MuellerMuller];

/// All lines. Both implementations must give the same.
pub fn recorded() -> String {
    agreed(recorded_by(Fallback), &recorded_by(Reference))
}

/// The set-ups, the cases X13 to X21 of docs/SPECIFICATION.md and the symbol numbers; then chains of calls,
/// turned lists, and calls between conversions.
fn recorded_by<K: Kernel>(kernel: K) -> String {
    let mut random = Random::new(SEED);
    let script = Script::default();
    let mut recorder = Recorder { kernel, script };
    set_ups::record(&mut recorder, &mut random);
    cases::record(&mut recorder);
    symbols::record(&mut recorder);
    for points in CONSTELLATIONS {
        for detector in DETECTORS {
            chains::record(&mut recorder, &mut random, points, detector);
            turned::record(&mut recorder, &mut random, points, detector);
        }
    }
    conversions::record(&mut recorder, &mut random);
    recorder.script.into_text()
}

/// The lines for the functions that the static library exports.
pub fn exported() -> String {
    agreed(exported_by(Fallback), &exported_by(Reference))
}

fn exported_by<K: Kernel>(kernel: K) -> String {
    let mut random = Random::new(SEED);
    let script = Script::default();
    let mut recorder = Recorder { kernel, script };
    library::record(&mut recorder, &mut random);
    let text = recorder.script.into_text();
    let played = |line: &&str| line.starts_with(|letter| library::LETTERS.contains(letter));
    text.split_inclusive('\n').filter(played).collect()
}

/// Quarter turns: those of the samples, and those that the carrier's phase is on.
#[derive(Clone, Copy, Debug, PartialEq)]
struct Turns {
    samples: u32,
    phase: u32,
}

impl Turns {
    /// All that Q3 allows: under BPSK both are even or both are odd.
    fn allowed(points: CostasConstellation) -> Vec<Self> {
        let all = (0..4).flat_map(|samples| (0..4).map(move |phase| Self { samples, phase }));
        let even = |turns: &Self| (turns.samples + turns.phase).is_multiple_of(2);
        all.filter(|turns| points != CostasConstellation::Bpsk || even(turns))
            .collect()
    }

    /// Those that undo these.
    fn back(self) -> Self {
        Self {
            samples: (4 - self.samples) % 4,
            phase: (4 - self.phase) % 4,
        }
    }
}

/// What a sample call gave.
struct Called {
    answer: Answer,
    strobes: Vec<f32>,
    output: Vec<f32>,
}

/// Records what an implementation answers.
struct Recorder<K> {
    kernel: K,
    script: Script,
}

impl<K: Kernel> Recorder<K> {
    /// A set-up, with the turns of the second receiver that the replay plays beside this one; gives the
    /// receiver if it is accepted.
    fn set_up(&mut self, values: Values, turns: Turns) -> Option<Receiver> {
        let Values {
            timing: t,
            carrier: c,
            named,
        } = values;
        let made = Receiver::new(values);
        let letter = if named { 'n' } else { 'u' };
        let points = u64::from(constellation_code(c.points));
        let detector = u64::from(ted_code(t.detector));
        let [samples, phase] = [turns.samples, turns.phase].map(u64::from);
        let all = detector + 2 * points + 16 * number(&made) + 256 * samples + 1024 * phase;
        let [sps, bandwidth, damping] = [t.sps, t.bandwidth, t.damping].map(bits64);
        self.script.line('v', sps, bandwidth, damping);
        let [bandwidth, damping, offset] = [c.bandwidth, c.damping, c.offset].map(bits64);
        self.script.line('c', bandwidth, damping, offset);
        self.script
            .line(letter, bits64(t.deviation), bits64(t.gain), all);
        let receiver = made.ok()?;
        self.record(&receiver);
        Some(receiver)
    }

    /// A set-up that is accepted.
    fn opened(&mut self, values: Values, turns: Turns) -> Receiver {
        let made = self.set_up(values, turns);
        made.expect("values inside their ranges")
    }

    /// Every field of the record, then the receiver's readings.
    fn record(&mut self, r: &Receiver) {
        let Receiver {
            timing,
            carrier,
            count,
        } = *r;
        states::timing(&mut self.script, &timing);
        states::carrier(&mut self.script, &carrier, ['d', 'g', 'w', 'l']);
        let [instant, pace] = [timing.next_strobe(), timing.sps_estimate()].map(bits64);
        self.script.line('q', count, instant, pace);
        let points = u64::from(constellation_code(carrier.constellation()));
        let flags = u64::from(carrier.locked()) + 2 * points;
        self.script.line(
            'e',
            bits64(carrier.frequency()),
            wide(carrier.lock_level()),
            u64::from(carrier.phase()) + (flags << 32),
        );
    }

    fn reset(&mut self, r: &mut Receiver) {
        r.reset();
        self.script.line('z', 0, 0, 0);
        self.record(r);
    }

    fn set_phase(&mut self, r: &mut Receiver, phase: u32) {
        r.carrier.set_phase(phase);
        self.script.line('p', u64::from(phase), 0, 0);
        self.record(r);
    }

    /// A record with another count, as a very long recording would leave it.
    fn set_count(&mut self, r: &mut Receiver, count: u64) {
        r.count = count;
        self.script.line('j', count, 0, 0);
        self.record(r);
    }

    /// The record converted down, and up again where that gives one; says whether it does.
    fn convert(&mut self, r: &mut Receiver) -> bool {
        let narrowed = r.narrowed();
        match narrowed {
            Some(old) => {
                self.script.line('x', old.count.into(), 0, 0);
                *r = old.widened();
            }
            None => self.script.line('x', 0, 0, TOO_LARGE),
        }
        self.record(r);
        narrowed.is_some()
    }

    /// A sample call with so many f32 of strobe buffer and of output, and the symbol number of each
    /// sample that it produced.
    fn call(&mut self, r: &mut Receiver, input: &[f32], strobes: usize, places: usize) -> Called {
        let lengths = halves(input.len() + (strobes << 16), places);
        let mut strobes = vec![SENTINEL; strobes];
        let mut output = vec![SENTINEL; places];
        let answer = r.run(&self.kernel, input, &mut strobes, &mut output);
        let counts = halves(answer.consumed, answer.produced);
        self.script.input(input);
        self.script.line('r', lengths, counts, answer.number);
        self.script.strobes(&strobes);
        self.script.output(&output);
        for sample in &samples(&output)[..answer.produced] {
            self.symbol(r.carrier.constellation, *sample);
        }
        self.record(r);
        Called {
            answer,
            strobes,
            output,
        }
    }

    /// The number of a symbol, or the code for none.
    fn symbol(&mut self, points: CostasConstellation, y: C32) {
        let code = u64::from(constellation_code(points));
        let number = symbol_code(points, y);
        self.script.line('m', pair(y.re, y.im), code, number);
    }
}

#[cfg(test)]
mod tests;
