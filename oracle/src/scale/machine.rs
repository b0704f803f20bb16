//! One implementation of one kind of loop, and how an operation is played on it.

use super::ops::{Op, Run, SetUp};
use super::sheet::{Sheet, Slate};
use crate::receiver_runs::receiver::Answer;

/// The symbol numbers of a call's input are asked for if it has at most so many f32.
const SHORT: usize = 128;

/// A state of one implementation. What a loop does not have does nothing.
pub trait Machine: Sized {
    /// Sets up: puts the number of its answer into the sheet and, if it is not 0, the record, which is
    /// all zeros then.
    fn open(set_up: &SetUp, sheet: &mut Sheet) -> Option<Self>;
    fn reset(&mut self);
    fn set_phase(&mut self, _phase: u32) {}
    fn set_frequency(&mut self, _frequency: f64) {}
    fn set_count(&mut self, _count: u64) {}
    /// The record converted down, and up again where that gives one. What comes of the first goes into the sheet.
    fn convert(&mut self, _sheet: &mut Sheet) {}
    /// A sample call.
    fn run(&mut self, input: &[f32], strobes: &mut [f32], output: &mut [f32]) -> Answer;
    /// Every field.
    fn record(&self, sheet: &mut Sheet);
    /// Everything that it tells of itself.
    fn readings(&self, sheet: &mut Sheet);
    /// The symbol numbers of samples.
    fn symbols(&self, _samples: &[f32], _numbers: &mut Vec<u64>) {}
}

/// Something that plays operations.
pub trait Side {
    /// Plays one and shows on the slate what came of it.
    fn play(&mut self, op: &Op, slate: &mut Slate);
}

/// A machine, once it is set up. Before that every operation but a set-up does nothing.
pub struct Held<M> {
    machine: Option<M>,
}

impl<M> Held<M> {
    pub fn new() -> Self {
        Self { machine: None }
    }
}

impl<M: Machine> Side for Held<M> {
    fn play(&mut self, op: &Op, slate: &mut Slate) {
        slate.lend(0, 0);
        if let Op::SetUp(set_up) = op {
            let Some(machine) = M::open(set_up, &mut slate.sheet) else {
                return;
            };
            self.machine = Some(machine);
        }
        let Some(machine) = &mut self.machine else {
            return;
        };
        match op {
            Op::SetUp(_) => {}
            Op::Reset => machine.reset(),
            Op::Phase(phase) => machine.set_phase(*phase),
            Op::Frequency(frequency) => machine.set_frequency(*frequency),
            Op::Count(count) => machine.set_count(*count),
            Op::Convert => machine.convert(&mut slate.sheet),
            Op::Run(run) => call(machine, run, slate),
        }
        machine.record(&mut slate.sheet);
        machine.readings(&mut slate.sheet);
    }
}

/// A sample call, its answer, and the numbers of its symbols.
fn call(machine: &mut impl Machine, run: &Run, slate: &mut Slate) {
    slate.lend(run.strobes, run.places);
    let answer = machine.run(&run.input, &mut slate.strobes, &mut slate.output);
    slate.sheet.count("number", answer.number as usize);
    slate.sheet.count("consumed", answer.consumed);
    slate.sheet.count("produced", answer.produced);
    // If the count is wrong, the comparison finds that.
    let produced = (2 * answer.produced).min(slate.output.len());
    machine.symbols(&slate.output[..produced], &mut slate.symbols);
    if run.input.len() <= SHORT {
        machine.symbols(&run.input, &mut slate.symbols);
    }
}
