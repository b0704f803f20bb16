//! The library's loops as machines.

use train_receiver::ffi;

use super::machine::Machine;
use super::ops::SetUp;
use super::original::all;
use super::sheet::Sheet;
use super::{readings, records};
use crate::receiver_runs::receiver::{Answer, refused};

/// A set-up's machine. If it is refused, there is none; the record that came with the number goes into
/// the sheet.
fn made<M: Machine>(number: u32, machine: M, sheet: &mut Sheet) -> Option<M> {
    sheet.count("number", number as usize);
    if number == 0 {
        return Some(machine);
    }
    machine.record(sheet);
    None
}

fn answer(counts: ffi::Counts) -> Answer {
    Answer {
        number: counts.number.into(),
        consumed: counts.consumed,
        produced: counts.produced,
    }
}

fn put_timing<T: records::Theirs>(record: &ffi::Timing<T>, sheet: &mut Sheet) {
    sheet.state(&records::timing(record));
    sheet.count("detector code", record.params.ted as usize);
}

fn put_carrier(record: &ffi::Carrier, sheet: &mut Sheet) {
    sheet.state(&records::carrier(record));
    sheet.count("constellation code", record.constellation as usize);
}

// SAFETY, in all calls below: a record is one that the library has given, since a machine is only kept
// after a set-up that was accepted. A buffer's pointer and count are those of a slice, and no two of
// them overlap. The one field that is written here is the symbol count, of which nothing is required.

/// Timing of real samples.
pub struct Real(ffi::Timing<f32>);

impl Machine for Real {
    fn open(set_up: &SetUp, sheet: &mut Sheet) -> Option<Self> {
        let values = records::timing_values(&set_up.values.timing, set_up.spare);
        let made_up = unsafe { ffi::trr_real_set_up(values) };
        made(made_up.number, Self(made_up.state), sheet)
    }

    fn reset(&mut self) {
        self.0 = unsafe { ffi::trr_real_reset(self.0) };
    }

    fn run(&mut self, input: &[f32], _strobes: &mut [f32], output: &mut [f32]) -> Answer {
        let (from, to) = (input.as_ptr(), output.as_mut_ptr());
        let progress =
            unsafe { ffi::trr_real_run(&mut self.0, from, input.len(), to, output.len()) };
        Answer {
            number: 0,
            consumed: progress.consumed,
            produced: progress.produced,
        }
    }

    fn record(&self, sheet: &mut Sheet) {
        put_timing(&self.0, sheet);
    }

    fn readings(&self, sheet: &mut Sheet) {
        readings::put_timing(&unsafe { ffi::trr_real_readings(self.0) }, sheet);
    }
}

/// Timing of complex samples.
pub struct Complex(ffi::Timing<ffi::C32>);

impl Machine for Complex {
    fn open(set_up: &SetUp, sheet: &mut Sheet) -> Option<Self> {
        let values = records::timing_values(&set_up.values.timing, set_up.spare);
        let made_up = unsafe { ffi::trr_complex_set_up(values) };
        made(made_up.number, Self(made_up.state), sheet)
    }

    fn reset(&mut self) {
        self.0 = unsafe { ffi::trr_complex_reset(self.0) };
    }

    fn run(&mut self, input: &[f32], _strobes: &mut [f32], output: &mut [f32]) -> Answer {
        let (from, to) = (input.as_ptr(), output.as_mut_ptr());
        answer(unsafe { ffi::trr_complex_run(&mut self.0, from, input.len(), to, output.len()) })
    }

    fn record(&self, sheet: &mut Sheet) {
        put_timing(&self.0, sheet);
    }

    fn readings(&self, sheet: &mut Sheet) {
        readings::put_timing(&unsafe { ffi::trr_complex_readings(self.0) }, sheet);
    }
}

/// The carrier.
pub struct Carrier(ffi::Carrier);

impl Machine for Carrier {
    fn open(set_up: &SetUp, sheet: &mut Sheet) -> Option<Self> {
        let values = &set_up.values.carrier;
        let points = records::constellation(values.points, set_up.spare);
        let made_up = unsafe { ffi::trr_carrier_set_up(points, records::carrier_values(values)) };
        made(made_up.number, Self(made_up.state), sheet)
    }

    fn reset(&mut self) {
        self.0 = unsafe { ffi::trr_carrier_reset(self.0) };
    }

    fn set_phase(&mut self, phase: u32) {
        self.0 = unsafe { ffi::trr_carrier_set_phase(self.0, phase) };
    }

    fn set_frequency(&mut self, frequency: f64) {
        self.0 = unsafe { ffi::trr_carrier_set_frequency(self.0, frequency) };
    }

    fn run(&mut self, input: &[f32], _strobes: &mut [f32], output: &mut [f32]) -> Answer {
        let (from, to) = (input.as_ptr(), output.as_mut_ptr());
        let number =
            unsafe { ffi::trr_carrier_run(&mut self.0, from, input.len(), to, output.len()) };
        if number == 0 {
            all(input.len() / 2)
        } else {
            refused(number.into())
        }
    }

    fn record(&self, sheet: &mut Sheet) {
        put_carrier(&self.0, sheet);
    }

    fn readings(&self, sheet: &mut Sheet) {
        readings::put_carrier(&unsafe { ffi::trr_carrier_readings(self.0) }, sheet);
    }
}

/// The receiver.
pub struct Receiver(ffi::Receiver);

impl Machine for Receiver {
    fn open(set_up: &SetUp, sheet: &mut Sheet) -> Option<Self> {
        let values = &set_up.values;
        let timing = records::timing_values(&values.timing, set_up.spare);
        let carrier = records::carrier_values(&values.carrier);
        let points = records::constellation(values.carrier.points, set_up.spare);
        let made_up = unsafe {
            if values.named {
                ffi::trr_receiver_set_up(points, timing, carrier)
            } else {
                ffi::trr_receiver_set_up_unnamed(timing, carrier)
            }
        };
        made(made_up.number, Self(made_up.receiver), sheet)
    }

    fn reset(&mut self) {
        self.0 = unsafe { ffi::trr_receiver_reset(self.0) };
    }

    fn set_phase(&mut self, phase: u32) {
        self.0 = unsafe { ffi::trr_receiver_set_phase(self.0, phase) };
    }

    fn set_count(&mut self, count: u64) {
        self.0.count = count;
    }

    fn convert(&mut self, sheet: &mut Sheet) {
        let answer = unsafe { ffi::trr_receiver_narrow(self.0) };
        sheet.count("narrowed", answer.number as usize);
        put_timing(&answer.receiver.timing, sheet);
        put_carrier(&answer.receiver.carrier, sheet);
        sheet.count("count of 32 bits", answer.receiver.count as usize);
        if answer.number == 0 {
            self.0 = unsafe { ffi::trr_receiver_widen(answer.receiver) };
        }
    }

    fn run(&mut self, input: &[f32], strobes: &mut [f32], output: &mut [f32]) -> Answer {
        answer(unsafe {
            ffi::trr_receiver_receive(
                &mut self.0,
                input.as_ptr(),
                input.len(),
                strobes.as_mut_ptr(),
                strobes.len(),
                output.as_mut_ptr(),
                output.len(),
            )
        })
    }

    fn record(&self, sheet: &mut Sheet) {
        put_timing(&self.0.timing, sheet);
        put_carrier(&self.0.carrier, sheet);
        sheet.count("count", self.0.count as usize);
    }

    fn readings(&self, sheet: &mut Sheet) {
        let told = unsafe { ffi::trr_receiver_readings(self.0) };
        readings::put_timing(&told.timing, sheet);
        readings::put_carrier(&told.carrier, sheet);
        sheet.count("read count", told.count as usize);
    }

    fn symbols(&self, samples: &[f32], numbers: &mut Vec<u64>) {
        let points = self.0.carrier.constellation;
        let pairs = samples.chunks_exact(2);
        let number = |two: &[f32]| unsafe { ffi::trr_symbol_number(points, two[0], two[1]) } as u64;
        numbers.extend(pairs.map(number));
    }
}
