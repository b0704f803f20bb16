//! What a tape gives when it is cut.

use super::super::model::{CUT, Outcome};
use super::super::stream::Stream;
use super::{FRAMES, Fallback, Frame, given, whole_commands};

/// A tape cut behind so many bytes. If the whole tape is refused up to there, and not because it ends, the cut
/// does not show. Else what is whole within the cut was played, and the cut is between commands or inside one.
fn check(tape: &[u8], all: &Outcome, length: usize) {
    let cut = given(&tape[..length]);
    if all.number != 0 && all.number != CUT && all.stop <= length {
        assert_eq!(cut, *all);
        return;
    }
    let whole: usize = whole_commands(&tape[..length])
        .iter()
        .map(|c| c.len())
        .sum();
    let number = if whole == length { 0 } else { CUT };
    assert_eq!((cut.number, cut.stop), (number, length));
    assert_eq!(cut.output, given(&tape[..whole]).output);
    assert!(all.output.starts_with(&cut.output));
}

fn check_all(Frame { tape, outcome }: &Frame) {
    for length in 0..=tape.len() {
        check(tape, outcome, length);
    }
}

#[test]
fn a_recorded_tape_may_be_cut_anywhere() {
    let short = FRAMES.iter().filter(|frame| frame.tape.len() < 500);
    short.step_by(17).for_each(check_all);
}

#[test]
fn a_random_tape_may_be_cut_anywhere() {
    let short = Stream::new(11).filter(|tape| tape.len() < 500);
    for tape in short.step_by(20).take(60) {
        check_all(&Frame::of(&Fallback, tape));
    }
}
