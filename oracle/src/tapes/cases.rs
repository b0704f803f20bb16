//! Tapes made by hand: every refusal in every place where it can arise.

use super::commands::{Command, RESET, SAMPLES, tape};
use super::model::MOST;
use super::recorded::Tapes;
use super::usual::{carrier, other_carrier, other_timing, ramp, timing};
use crate::kernels::costas::CostasConstellation;
use crate::kernels::symbol_sync::Ted;
use crate::receiver_runs::one_of_each;
use crate::script::number;
use crate::types::C32;
use crate::{carrier_runs, runs};

pub fn record(tapes: &mut Tapes) {
    for start in starts() {
        for tail in tails() {
            tapes.add([tape(&start), tail].concat());
        }
    }
}

/// What came before: nothing, one loop, one loop twice, both, samples, a reset, a loop that was replaced.
fn starts() -> Vec<Vec<Command>> {
    let t = timing(Ted::Gardner);
    let u = other_timing(Ted::Gardner);
    let c = carrier(CostasConstellation::Qpsk);
    let d = other_carrier(CostasConstellation::Qpsk);
    [
        &[][..],
        &[&t],
        &[&c],
        &[&t, &u],
        &[&c, &d],
        &[&t, &c],
        &[&c, &t, &ramp(7)],
        &[&t, &c, &ramp(5), &Command::Reset],
        &[&t, &c, &ramp(4), &u],
        &[&c, &t, &ramp(4), &d],
    ]
    .map(|list| list.iter().copied().cloned().collect())
    .into()
}

/// What comes then.
fn tails() -> Vec<Vec<u8>> {
    let lists = [undefined(), wrong(), cut(), good()];
    lists.into_iter().flatten().collect()
}

/// Bytes that are not defined, alone and with more behind them; counts above the most.
fn undefined() -> Vec<Vec<u8>> {
    let mut list: Vec<Vec<u8>> = [0x00, 0x05, 0x10, 0x81, 0xff].map(|byte| vec![byte]).into();
    list.push(vec![0x05, RESET]);
    for (mut set_up, selectors) in [
        (carrier(CostasConstellation::Bpsk).bytes(), [3, 4, 255]),
        (timing(Ted::MuellerMuller).bytes(), [2, 3, 255]),
    ] {
        list.extend(selectors.map(|selector| vec![set_up[0], selector]));
        set_up[1] = selectors[0];
        list.push(set_up);
    }
    for count in [2_049, 2_304, 4_096, 32_768, 65_535] {
        list.push(counted(count));
    }
    list.push([counted(2_049), vec![0; 16]].concat());
    list
}

/// A command for samples, up to its count.
fn counted(count: u16) -> Vec<u8> {
    let [low, high] = count.to_le_bytes();
    vec![SAMPLES, low, high]
}

/// A set-up for each number of each loop, and one that is accepted, with a reset behind it.
fn wrong() -> Vec<Vec<u8>> {
    let timing = runs::listed(Ted::Gardner);
    let timing = one_of_each(timing, |t| number(&t.set_up::<C32>()));
    let carrier = carrier_runs::listed(CostasConstellation::Psk8);
    let carrier = one_of_each(carrier, |c| number(&c.set_up()));
    let timing = timing.into_iter().map(Command::Timing);
    let carrier = carrier.into_iter().map(Command::Carrier);
    timing
        .chain(carrier)
        .map(|set_up| tape(&[set_up, Command::Reset]))
        .collect()
}

/// Commands that the tape's end cuts, also behind values that would be refused.
fn cut() -> Vec<Vec<u8>> {
    let mut hasty = runs::ordinary(Ted::Gardner);
    hasty.sps = 1.0;
    let mut wide = carrier_runs::ordinary(CostasConstellation::Bpsk);
    wide.bandwidth = f64::NAN;
    let (hasty, wide) = (Command::Timing(hasty), Command::Carrier(wide));
    let mut list = Vec::new();
    for (command, lengths) in [
        (
            carrier(CostasConstellation::Psk8),
            &[1, 2, 3, 9, 18, 25][..],
        ),
        (wide, &[10, 25]),
        (timing(Ted::MuellerMuller), &[1, 2, 3, 9, 34, 41]),
        (hasty, &[10, 41]),
        (ramp(2), &[1, 2, 3, 4, 7, 11, 12, 18]),
    ] {
        let bytes = command.bytes();
        list.extend(lengths.iter().map(|&length| bytes[..length].to_vec()));
    }
    // Half a count that could still become too large, and the largest count.
    list.push(vec![SAMPLES, 0xff]);
    list.push([counted(MOST as u16), vec![0; 24]].concat());
    list
}

/// Commands that are whole, and good if what they need is set up.
fn good() -> Vec<Vec<u8>> {
    let t = timing(Ted::MuellerMuller);
    let c = carrier(CostasConstellation::Bpsk);
    let none = Command::Samples(Vec::new());
    [
        &[][..],
        &[&none],
        &[&ramp(1)],
        &[&ramp(8)],
        &[&ramp(3), &none, &ramp(6)],
        &[&Command::Reset],
        &[&Command::Reset, &ramp(6)],
        &[&t, &ramp(8)],
        &[&c, &ramp(8)],
        &[&t, &c, &ramp(8)],
        &[&c, &t, &Command::Reset, &ramp(8)],
    ]
    .map(|list| list.iter().flat_map(|command| command.bytes()).collect())
    .into()
}
