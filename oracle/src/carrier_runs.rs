//! The recorded answers of the carrier loop, for the replay of the ported one: set-ups, setters,
//! resets and runs, with the whole state after each. README.md describes the lines.

use crate::bits::{SENTINEL, bits64, fresh_output};
use crate::error::Error;
use crate::fields::constellation_code;
use crate::kernels::costas::{Costas, CostasConstellation, CostasState};
use crate::random::Random;
use crate::script::{Script, agreed, flat, halves, number};
use crate::signal::Signal;
use crate::states;
use crate::types::C32;
use crate::{Fallback, Reference};

mod chains;
mod flush;
mod lock;
mod odd;
mod set_ups;
mod setters;

pub use chains::{BANDWIDTHS, DAMPINGS, OFFSETS};
pub use lock::{edges, on_the_axes};
pub use odd::PARTS;
pub use set_ups::{listed, ordinary};

/// The random numbers are the same every time.
const SEED: u64 = 20_261_117;

/// The constellations that are ported.
pub const CONSTELLATIONS: [CostasConstellation; 3] = [
    CostasConstellation::Bpsk,
    CostasConstellation::Qpsk,
    CostasConstellation::Psk8,
];

/// A signal of a constellation, one sample for each symbol, with a little noise and on no carrier.
pub fn signal_of(points: CostasConstellation) -> Signal {
    let order = points.psk_order().expect("a constellation on the circle");
    Signal::ordinary(order as usize, 1.0)
}

/// All lines. Both implementations must give the same.
pub fn recorded() -> String {
    agreed(recorded_by(Fallback), &recorded_by(Reference))
}

/// The set-ups and the setters; then odd samples, chains of calls and the lock detector under each
/// constellation; the cases X18 and X19 of docs/SPECIFICATION.md, and the flushes.
fn recorded_by<K: Costas>(kernel: K) -> String {
    let mut random = Random::new(SEED);
    let script = Script::default();
    let mut recorder = Recorder { kernel, script };
    for points in CONSTELLATIONS {
        set_ups::record(&mut recorder, points);
    }
    set_ups::gains(&mut recorder, &mut random);
    setters::record(&mut recorder, &mut random);
    for points in CONSTELLATIONS {
        odd::record(&mut recorder, points);
        chains::record(&mut recorder, &mut random, points);
        lock::record(&mut recorder, &mut random, points);
    }
    lock::cases(&mut recorder);
    flush::record(&mut recorder);
    recorder.script.into_text()
}

/// The values of a set-up.
#[derive(Clone, Copy, Debug)]
pub struct Values {
    pub points: CostasConstellation,
    pub bandwidth: f64,
    pub damping: f64,
    pub offset: f64,
}

impl Values {
    /// What the original makes of them.
    pub fn set_up(self) -> Result<CostasState, Error> {
        CostasState::new(self.points, self.bandwidth, self.damping, self.offset)
    }
}

/// Records what an implementation answers.
struct Recorder<K> {
    kernel: K,
    script: Script,
}

impl<K: Costas> Recorder<K> {
    /// A set-up; gives its state if it is accepted.
    fn set_up(&mut self, values: Values) -> Option<CostasState> {
        let [bandwidth, damping, offset] =
            [values.bandwidth, values.damping, values.offset].map(bits64);
        let points = u64::from(constellation_code(values.points));
        let made = values.set_up();
        self.script.line('v', bandwidth, damping, offset);
        self.script.line('n', points, 0, number(&made));
        let state = made.ok()?;
        self.state(&state);
        Some(state)
    }

    /// A set-up that is accepted.
    fn opened(&mut self, values: Values) -> CostasState {
        self.set_up(values).expect("values inside their ranges")
    }

    /// Every field.
    fn state(&mut self, s: &CostasState) {
        states::carrier(&mut self.script, s, ['a', 'k', 's', 'l']);
    }

    fn reset(&mut self, s: &mut CostasState) {
        s.reset();
        self.script.line('z', 0, 0, 0);
        self.state(s);
    }

    fn set_phase(&mut self, s: &mut CostasState, phase: u32) {
        s.set_phase(phase);
        self.script.line('p', u64::from(phase), 0, 0);
        self.state(s);
    }

    /// The frequency's own bits are recorded, a NaN's too.
    fn set_frequency(&mut self, s: &mut CostasState, frequency: f64) {
        s.set_frequency(frequency);
        self.script.line('q', frequency.to_bits(), 0, 0);
        self.state(s);
    }

    /// A run, refused if the counts differ.
    fn run(&mut self, s: &mut CostasState, input: &[C32], places: usize) {
        let mut output = fresh_output(places);
        let ran = self.kernel.costas(s, input, &mut output);
        let lengths = halves(2 * input.len(), 2 * places);
        self.script.input(&flat(input));
        self.script.line('r', lengths, 0, number(&ran));
        self.script.output(&flat(&output));
        self.state(s);
    }

    /// A run with a place for each sample.
    fn even_run(&mut self, s: &mut CostasState, input: &[C32]) {
        self.run(s, input, input.len());
    }

    /// A run that is refused with number 8 (E8): one f32 of the input, of the output or of both
    /// is left over. The original lends whole samples and has no such call.
    fn odd_run(&mut self, s: &CostasState, floats: &[f32], places: usize) {
        self.script.input(floats);
        self.script.line('r', halves(floats.len(), places), 0, 8);
        self.script.output(&vec![SENTINEL; places]);
        self.state(s);
    }
}

#[cfg(test)]
mod tests;
