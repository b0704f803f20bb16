//! The model gives what the text of the order tape says, and the frames are in the form that README.md
//! describes and reach what they should.

mod cuts;
mod direct;
mod examples;
mod planted;
mod reached;
mod refusals;
mod streamed;

use std::sync::LazyLock;

use super::frames::{Frame, parsed};
use super::model::{Outcome, play};
use super::recorded;
use crate::{Fallback, Reference};

/// The recorded frames, which both implementations give.
static FRAMES: LazyLock<Vec<Frame>> = LazyLock::new(|| parsed(&super::recorded()));

/// What a tape gives. Both implementations must agree.
fn given(tape: &[u8]) -> Outcome {
    let outcome = play(&Fallback, tape);
    assert_eq!(outcome, play(&Reference, tape));
    outcome
}

/// The bytes of hexadecimal digits, with blanks between them anywhere.
fn bytes(digits: &str) -> Vec<u8> {
    let digits: Vec<char> = digits.chars().filter(|digit| *digit != ' ').collect();
    let byte = |two: &[char]| u8::from_str_radix(&String::from_iter(two), 16).unwrap();
    digits.chunks(2).map(byte).collect()
}

/// The bytes of the command that a tape begins with, or none if it is not whole or not defined.
fn first_command(tape: &[u8]) -> Option<usize> {
    let length = match tape.first()? {
        1 => 26,
        2 => 42,
        3 => 3 + 8 * usize::from(u16::from_le_bytes([*tape.get(1)?, *tape.get(2)?])),
        4 => 1,
        _ => return None,
    };
    (length <= tape.len()).then_some(length)
}

/// The whole commands that a tape begins with.
fn whole_commands(mut tape: &[u8]) -> Vec<&[u8]> {
    let mut list = Vec::new();
    while let Some(length) = first_command(tape) {
        let (command, rest) = tape.split_at(length);
        list.push(command);
        tape = rest;
    }
    list
}

/// The commands of a tape that were carried out. The refused one may be whole.
fn carried_out<'a>(tape: &'a [u8], outcome: &Outcome) -> Vec<&'a [u8]> {
    let mut commands = whole_commands(&tape[..outcome.stop]);
    if outcome.number > 0 && commands.concat().len() == outcome.stop {
        commands.pop();
    }
    commands
}

#[test]
fn recorded_frames_can_be_read_and_are_the_same_every_time() {
    let file = super::recorded();
    assert!((300_000..600_000).contains(&file.len()));
    assert!(file == super::recorded(), "other bytes the second time");
    let written: Vec<u8> = FRAMES.iter().flat_map(Frame::bytes).collect();
    assert!(written == file, "other bytes when they are written again");
    let tapes: Vec<Vec<u8>> = FRAMES.iter().map(|frame| frame.tape.clone()).collect();
    assert_eq!(tapes, recorded::tapes());
}

#[test]
fn no_tape_is_recorded_twice_and_most_are_short() {
    let mut tapes = recorded::tapes();
    let short = tapes.iter().filter(|tape| tape.len() < 500).count();
    assert!(short > 4_000 && short + 10 > tapes.len());
    let count = tapes.len();
    tapes.sort();
    tapes.dedup();
    assert_eq!(tapes.len(), count);
}
