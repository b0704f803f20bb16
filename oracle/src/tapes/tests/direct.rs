//! A tape gives what the same calls on the receiver give, made one by one without a tape.

use super::super::model::MOST;
use super::super::stream::Stream;
use super::{FRAMES, Fallback, Frame, carried_out};
use crate::bits::bits32;
use crate::carrier_runs::{self, CONSTELLATIONS};
use crate::receiver_runs::DETECTORS;
use crate::receiver_runs::receiver::{Receiver, Values};
use crate::runs;

/// The value at a place of a set-up command.
fn double(command: &[u8], place: usize) -> f64 {
    f64::from_le_bytes(*command[2 + 8 * place..].first_chunk().unwrap())
}

fn carrier(command: &[u8]) -> carrier_runs::Values {
    carrier_runs::Values {
        points: CONSTELLATIONS[usize::from(command[1])],
        bandwidth: double(command, 0),
        damping: double(command, 1),
        offset: double(command, 2),
    }
}

fn timing(command: &[u8]) -> runs::Values {
    runs::Values {
        detector: DETECTORS[usize::from(command[1])],
        sps: double(command, 0),
        bandwidth: double(command, 1),
        damping: double(command, 2),
        deviation: double(command, 3),
        gain: double(command, 4),
    }
}

fn samples(command: &[u8]) -> Vec<f32> {
    let (parts, []) = command[3..].as_chunks() else {
        panic!("whole parts");
    };
    parts.iter().copied().map(f32::from_le_bytes).collect()
}

/// The receiver that set-ups give, the last one of each loop, if there are both.
fn receiver(set_ups: &[&[u8]]) -> Option<Receiver> {
    let last = |byte: u8| set_ups.iter().rfind(|command| command[0] == byte);
    let (t, c) = (timing(last(2)?), carrier(last(1)?));
    Some(Receiver::new(Values::named(t, c)).expect("accepted"))
}

/// The symbols of a call with as many places as the tape's calls have.
fn called(receiver: &mut Receiver, input: &[f32]) -> Vec<u8> {
    let (mut strobes, mut output) = (vec![0.0; 2 * MOST], vec![0.0; 2 * MOST]);
    let answer = receiver.run(&Fallback, input, &mut strobes, &mut output);
    let parts = output[..2 * answer.produced].iter();
    parts.flat_map(|part| bits32(*part).to_le_bytes()).collect()
}

/// What whole commands give: the set-ups up to the first other command, then each by itself.
fn direct(commands: &[&[u8]]) -> Vec<u8> {
    let first = commands.iter().position(|command| command[0] > 2);
    let (set_ups, rest) = commands.split_at(first.unwrap_or(commands.len()));
    let Some(mut receiver) = receiver(set_ups) else {
        assert!(rest.is_empty());
        return Vec::new();
    };
    let mut output = Vec::new();
    for command in rest {
        match command[0] {
            1 => receiver.carrier = carrier(command).set_up().expect("accepted"),
            2 => receiver.timing = timing(command).set_up().expect("accepted"),
            3 => output.extend(called(&mut receiver, &samples(command))),
            _ => receiver.reset(),
        }
    }
    output
}

/// The commands that were carried out give the same output.
fn check(Frame { tape, outcome }: &Frame) {
    assert_eq!(direct(&carried_out(tape, outcome)), outcome.output);
}

#[test]
fn recorded_tapes_give_what_the_calls_give() {
    FRAMES.iter().for_each(check);
}

#[test]
fn random_tapes_give_what_the_calls_give() {
    for tape in Stream::new(12).take(1_000) {
        check(&Frame::of(&Fallback, tape));
    }
}
