//! The receiver, with both detectors and under each constellation. The original's is its two loops in a
//! row, as in the recorded runs.

use std::rc::Rc;

use train_receiver::ffi::{self, Progress};

use super::drive::{Loop, empty_round, round};
use super::signals::Source;
use super::table::Tables;
use super::{carrier, timing};
use crate::Fallback;
use crate::bits::fresh_output;
use crate::fields::state_line;
use crate::kernels::costas::{Costas, CostasConstellation, CostasState};
use crate::kernels::symbol_sync::{SymbolSync, SymbolSyncState, Ted};
use crate::receiver_runs::receiver::Receiver;
use crate::scale::records;
use crate::signal::NOISE;
use crate::types::C32;

/// A receiver and its strobe buffer, which is there before the clock starts.
struct Buffered<R> {
    receiver: R,
    strobes: Vec<C32>,
}

/// Every field of both loops, and the symbol count.
fn state(timing: &SymbolSyncState<C32>, carrier: &CostasState, count: u64) -> String {
    let (timing, carrier) = (state_line(timing), state_line(carrier));
    format!("{timing} {carrier} count={count}")
}

impl Loop for Buffered<Receiver> {
    type Sample = C32;

    fn call(&mut self, input: &[C32], output: &mut [C32]) -> Progress {
        let r = &mut self.receiver;
        let strobes = &mut self.strobes[..output.len()];
        let timed = Fallback.symbol_sync(&mut r.timing, input, strobes);
        let progress = timing::counts(timed.expect("no internal error"));
        let produced = progress.produced;
        let (from, to) = (&strobes[..produced], &mut output[..produced]);
        let carried = Fallback.costas(&mut r.carrier, from, to);
        carried.expect("as many places as strobes");
        r.count = r.count.saturating_add(produced as u64);
        progress
    }

    fn state(&self) -> String {
        let r = &self.receiver;
        state(&r.timing, &r.carrier, r.count)
    }
}

impl Loop for Buffered<ffi::Receiver> {
    type Sample = C32;

    fn call(&mut self, input: &[C32], output: &mut [C32]) -> Progress {
        let strobes = &mut self.strobes[..output.len()];
        let (given, places) = (2 * input.len(), 2 * output.len());
        // SAFETY: each pointer is a slice's and each count that of its parts, which are f32; the record
        // is a set-up's.
        let done = unsafe {
            ffi::trr_receiver_receive(
                &mut self.receiver,
                input.as_ptr().cast(),
                given,
                strobes.as_mut_ptr().cast(),
                places,
                output.as_mut_ptr().cast(),
                places,
            )
        };
        timing::accepted(done)
    }

    fn state(&self) -> String {
        let r = &self.receiver;
        state(
            &records::timing(&r.timing),
            &records::carrier(&r.carrier),
            r.count,
        )
    }
}

/// The original's receiver after the set-up.
fn original(ted: Ted, points: CostasConstellation) -> Receiver {
    Receiver {
        timing: timing::original(ted),
        carrier: carrier::original(points),
        count: 0,
    }
}

fn ported(ted: Ted, points: CostasConstellation) -> ffi::Receiver {
    let code = records::constellation(points, 0);
    let first = records::timing_values(&timing::values(ted), 0);
    let second = records::carrier_values(&carrier::values(points));
    // SAFETY: any values may be given.
    let made = unsafe { ffi::trr_receiver_set_up(code, first, second) };
    assert_eq!(made.number, 0, "values in range");
    made.receiver
}

/// Both detectors under each constellation: a noisy signal of it at the pace of the set-up, on a carrier.
pub fn rows(tables: &mut Tables) {
    let samples = tables.samples;
    for (points, points_name) in carrier::CONSTELLATIONS {
        let source = source(points);
        let recorded: Rc<[C32]> = source.recording(samples);
        for (ted, ted_name) in timing::DETECTORS {
            let name = format!("receiver, {ted_name}, {points_name}");
            tables.row(name, source, |block| {
                let input = Rc::clone(&recorded);
                Box::new(move || {
                    let original = buffered(original(ted, points), samples);
                    let ported = buffered(ported(ted, points), samples);
                    round(&input, block, original, ported)
                })
            });
        }
    }
}

/// The signal under a constellation.
fn source(points: CostasConstellation) -> Source {
    Source {
        rows: "receiver",
        points: carrier::order(points),
        pace: timing::PACE,
        held: 1,
        noise: NOISE,
        carrier: Some(carrier::CARRIER),
    }
}

/// Empty calls, with the first detector and the second constellation.
pub fn calls(tables: &mut Tables) {
    let [(ted, ted_name), _] = timing::DETECTORS;
    let [_, (points, points_name), _] = carrier::CONSTELLATIONS;
    let run = move || {
        let original = buffered(original(ted, points), 0);
        let ported = buffered(ported(ted, points), 0);
        empty_round(original, ported)
    };
    let name = format!("receiver, {ted_name}, {points_name}");
    tables.call(name, Box::new(run));
}

fn buffered<R>(receiver: R, places: usize) -> Buffered<R> {
    let strobes = fresh_output(places);
    Buffered { receiver, strobes }
}
