//! Cuts random recordings into calls at random places, hands them to the receiver over the original's
//! loops, and compares what the calls give together with one call on the whole recording.

use crate::Fallback;
use crate::compare::tally::Tally;
use crate::compare::{Report, carrier, timing};
use crate::kernels::costas::CostasConstellation;
use crate::kernels::symbol_sync::Ted;
use crate::random::Random;
use crate::receiver_runs::receiver::{Receiver, Values};
use crate::script::flat;
use crate::signal::Signal;
use crate::types::C32;

/// How often each recording is cut.
const CUTS: usize = 4;
/// The samples of a recording, at most.
const LONGEST: usize = 3_000;
/// Above this pace a recording would have few symbols.
const SLOW: f64 = 60.0;

/// What the calls gave together.
struct Heard {
    receiver: Receiver,
    strobes: Vec<f32>,
    outputs: Vec<f32>,
    consumed: usize,
    calls: u64,
}

/// Recordings for each detector and constellation until each has its share of the symbols.
pub fn cuts(seed: u64, symbols: u64) -> Report {
    let mut random = Random::new(seed);
    let (g, m) = (Ted::Gardner, Ted::MuellerMuller);
    let (b, q, e) = (
        CostasConstellation::Bpsk,
        CostasConstellation::Qpsk,
        CostasConstellation::Psk8,
    );
    let lanes = [
        ("Gardner BPSK", g, b),
        ("Gardner QPSK", g, q),
        ("Gardner 8-PSK", g, e),
        ("Mueller-Mueller BPSK", m, b),
        ("Mueller-Mueller QPSK", m, q),
        ("Mueller-Mueller 8-PSK", m, e),
    ];
    let share = symbols.div_ceil(lanes.len() as u64);
    let tallies = lanes.map(|(name, ted, points)| lane(&mut random, name, ted, points, share));
    let total = Tally::sum("all", &tallies);
    let mut text = format!("seed {seed}\n");
    for tally in tallies.iter().chain([&total]) {
        text += &tally.lines();
    }
    let clean = total.clean() && total.zero_sign == 0 && total.nan_pattern == 0;
    text += if clean {
        "no cut shows\n"
    } else {
        "DIFFERENCES\n"
    };
    Report { text, clean }
}

fn lane(
    random: &mut Random,
    name: &'static str,
    ted: Ted,
    points: CostasConstellation,
    enough: u64,
) -> Tally {
    let mut tally = Tally::new(name);
    while tally.symbols < enough {
        let mut values = timing::values(random, ted);
        values.sps = values.sps.min(SLOW);
        let values = Values::named(values, carrier::values(random, points));
        match Receiver::new(values) {
            Ok(receiver) => recording(random, &mut tally, receiver, values.timing.sps),
            Err(_) => tally.refused_set_ups += 1,
        }
    }
    tally
}

/// One recording, from a fresh receiver or from one that has received another.
fn recording(random: &mut Random, tally: &mut Tally, mut receiver: Receiver, sps: f64) {
    let mut signal = Signal::new(random, sps);
    for _ in 0..random.up_to(1) {
        let before = samples(random, &mut signal);
        receiver = listen(receiver, &before, before.len(), |_| before.len() + 2).receiver;
    }
    let recorded = samples(random, &mut signal);
    tally.sessions += 1;
    tally.count_input(&recorded);
    let whole = listen(receiver, &recorded, recorded.len(), |_| recorded.len() + 2);
    tally.must(
        whole.calls <= 1,
        "the whole is one call, if there is any sample",
    );
    tally.symbols += whole.strobes.len() as u64 / 2;
    for _ in 0..CUTS {
        let block = 1 + random.pick(&[0, 1, 2, 5, 6, 13, 126, 127, 999, recorded.len()]);
        let few = random.pick(&[1, 1, 2, 3, 7, 64, recorded.len()]);
        let spare = random.chance(0.5);
        // Without spare places a call has few, and now and then none while blocks are to come.
        let cut = listen(receiver, &recorded, block, |last| {
            let none = !spare && !last && random.chance(0.1);
            if none { 0 } else { 2 * few }
        });
        tally.calls += cut.calls;
        compare(tally, &cut, &whole);
    }
}

fn samples(random: &mut Random, signal: &mut Signal) -> Vec<f32> {
    let length = match random.up_to(9) {
        0..3 => random.up_to(12),
        3..7 => random.up_to(300),
        _ => random.up_to(LONGEST),
    };
    flat(&signal.block::<C32>(random, length))
}

/// Hands the recording over in blocks of so many f32, an odd count too: each call gets what the last one
/// left, then its own block. `places` says for how many f32 a call has places, and is told whether all
/// blocks are handed over; after that what is left is handed again.
fn listen(
    mut receiver: Receiver,
    recorded: &[f32],
    block: usize,
    mut places: impl FnMut(bool) -> usize,
) -> Heard {
    let mut rest: Vec<f32> = Vec::new();
    let (mut strobes, mut outputs) = (Vec::new(), Vec::new());
    let (mut at, mut consumed, mut calls) = (0, 0, 0);
    while at < recorded.len() || !rest.is_empty() {
        let end = recorded.len().min(at + block);
        rest.extend_from_slice(&recorded[at..end]);
        at = end;
        let room = places(at == recorded.len()) & !1;
        let (mut zs, mut ys) = (vec![0.0; room], vec![0.0; room]);
        let answer = receiver.run(&Fallback, &rest, &mut zs, &mut ys);
        strobes.extend_from_slice(&zs[..2 * answer.produced]);
        outputs.extend_from_slice(&ys[..2 * answer.produced]);
        rest.drain(..2 * answer.consumed);
        consumed += answer.consumed;
        calls += 1;
    }
    Heard {
        receiver,
        strobes,
        outputs,
        consumed,
        calls,
    }
}

fn compare(tally: &mut Tally, a: &Heard, b: &Heard) {
    tally.compare_answers(&a.strobes.len(), &b.strobes.len());
    tally.compare_answers(&a.consumed, &b.consumed);
    tally.compare_answers(&a.receiver.count, &b.receiver.count);
    tally.compare_buffers(&a.strobes, &b.strobes);
    tally.compare_buffers(&a.outputs, &b.outputs);
    tally.compare_states(&a.receiver.timing, &b.receiver.timing);
    tally.compare_states(&a.receiver.carrier, &b.receiver.carrier);
}

#[cfg(test)]
mod tests {
    use super::*;

    #[test]
    fn no_cut_of_a_few_recordings_shows() {
        let report = cuts(7, 3_000);
        assert!(report.clean, "{}", report.text);
        assert_eq!(report.text, cuts(7, 3_000).text);
    }

    #[test]
    fn a_sample_that_is_lost_between_calls_shows() {
        let mut random = Random::new(5);
        let values = Values::named(
            crate::runs::ordinary(Ted::Gardner),
            crate::carrier_runs::ordinary(CostasConstellation::Qpsk),
        );
        let receiver = Receiver::new(values).expect("values inside their ranges");
        let recorded = flat(&Signal::ordinary(4, 4.0).block::<C32>(&mut random, 400));
        let mut short = recorded.clone();
        short.drain(200..202);
        let (a, b) = (
            listen(receiver, &short, 64, |_| 128),
            listen(receiver, &recorded, recorded.len(), |_| 1_000),
        );
        let mut tally = Tally::new("short");
        compare(&mut tally, &a, &b);
        assert!(!tally.clean());
    }

    /// What so many calls on a block leave, each with places for `room` f32 and handed what is left.
    fn left(mut receiver: Receiver, block: &[f32], calls: usize, room: usize) -> usize {
        let mut rest = block.to_vec();
        for _ in 0..calls {
            let (mut zs, mut ys) = (vec![0.0; room], vec![0.0; room]);
            let answer = receiver.run(&Fallback, &rest, &mut zs, &mut ys);
            rest.drain(..2 * answer.consumed);
        }
        rest.len()
    }

    /// One place more than there are samples takes all, and so does one place in one call more. One fewer
    /// is not always enough.
    #[test]
    fn one_more_than_the_samples_is_enough_and_as_many_are_not() {
        let mut random = Random::new(11);
        let (mut places, mut calls) = (0, 0);
        while places == 0 || calls == 0 {
            let mut timing = timing::values(&mut random, Ted::Gardner);
            (timing.sps, timing.deviation, timing.gain) = (2.0, 0.05, 0.01);
            let carrier = carrier::values(&mut random, CostasConstellation::Qpsk);
            let Ok(fresh) = Receiver::new(Values::named(timing, carrier)) else {
                continue;
            };
            let mut signal = Signal::new(&mut random, 2.0);
            let before = flat(&signal.block::<C32>(&mut random, 12));
            let few = 1 + random.up_to(5);
            let mut receiver = fresh;
            receiver.run(
                &Fallback,
                &before,
                &mut vec![0.0; 2 * few],
                &mut vec![0.0; 2 * few],
            );
            let n = 1 + random.up_to(2);
            let block = flat(&signal.block::<C32>(&mut random, n));
            assert_eq!(left(receiver, &block, 1, 2 * (n + 1)), 0);
            assert_eq!(left(receiver, &block, n + 1, 2), 0);
            places += left(receiver, &block, 1, 2 * n);
            calls += left(receiver, &block, n, 2);
        }
    }
}
