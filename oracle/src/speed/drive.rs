//! The driver, one for both implementations: a recording goes to a loop in blocks, or the loop gets empty
//! calls, and its state is carried on from call to call.

use std::hint::black_box;
use std::time::{Duration, Instant};

use train_receiver::ffi::Progress;

use crate::bits::{Parts, fresh_output};

/// The calls of a run of empty calls.
pub const EMPTY_CALLS: usize = 20_000;

/// One implementation of a loop, with its state.
pub trait Loop {
    type Sample: Parts;

    /// One call. As many places are lent as samples.
    fn call(&mut self, input: &[Self::Sample], output: &mut [Self::Sample]) -> Progress;

    /// Every field of the state.
    fn state(&self) -> String;
}

/// What a run comes to, but for its time.
#[derive(PartialEq)]
struct Outcome {
    calls: Vec<Progress>,
    output: Vec<u32>,
    state: String,
}

/// One run of each implementation.
pub struct Round {
    /// The nanoseconds for each symbol, or for each empty call, the original's first.
    pub ns: [f64; 2],
    /// Whether calls, outputs and states came out the same.
    pub same: bool,
}

/// Runs two loops that are just set up on a recording, in blocks of so many samples.
pub fn round<O: Loop, P: Loop<Sample = O::Sample>>(
    input: &[O::Sample],
    block: usize,
    original: O,
    ported: P,
) -> Round {
    let (first, one) = run(original, input, block);
    let (second, other) = run(ported, input, block);
    let symbols: usize = one.calls.iter().map(|call| call.produced).sum();
    Round {
        ns: [first, second].map(|time| time.as_nanos() as f64 / symbols as f64),
        same: one == other,
    }
}

fn run<L: Loop>(mut subject: L, input: &[L::Sample], block: usize) -> (Duration, Outcome) {
    let mut output = fresh_output::<L::Sample>(input.len());
    let mut calls = Vec::with_capacity(input.len() / block + 1);
    let start = Instant::now();
    drive(&mut subject, input, block, &mut output, &mut calls);
    let time = start.elapsed();
    let parts = output.iter().flat_map(|sample| sample.parts());
    let outcome = Outcome {
        calls,
        output: parts.map(f32::to_bits).collect(),
        state: subject.state(),
    };
    (time, outcome)
}

/// All calls: each gets the next block behind what the last one did not consume.
fn drive<L: Loop>(
    subject: &mut L,
    input: &[L::Sample],
    block: usize,
    output: &mut [L::Sample],
    calls: &mut Vec<Progress>,
) {
    let (mut taken, mut end, mut written) = (0, 0, 0);
    while end < input.len() {
        end = input.len().min(end + block);
        let lent = &input[taken..end];
        let places = &mut output[written..written + lent.len()];
        let progress = subject.call(lent, places);
        taken += progress.consumed;
        written += progress.produced;
        calls.push(progress);
    }
}

/// Runs two loops that are just set up on empty calls: they are lent no samples and no places.
pub fn empty_round<O: Loop, P: Loop<Sample = O::Sample>>(original: O, ported: P) -> Round {
    let (first, one) = empty_run(original);
    let (second, other) = empty_run(ported);
    Round {
        ns: [first, second].map(|time| time.as_nanos() as f64 / EMPTY_CALLS as f64),
        same: one == other,
    }
}

/// The time of all empty calls; the sums of their counts, and the state after them. Each call is lent the
/// state anew, and nothing is known of what it is lent, so that none can be left out.
fn empty_run<L: Loop>(mut subject: L) -> (Duration, ([usize; 2], String)) {
    let mut sums = [0, 0];
    let start = Instant::now();
    for _ in 0..EMPTY_CALLS {
        let lent = black_box(&mut subject);
        let progress = lent.call(black_box(&[]), black_box(&mut []));
        sums[0] += progress.consumed;
        sums[1] += progress.produced;
    }
    let time = start.elapsed();
    (time, (sums, subject.state()))
}
