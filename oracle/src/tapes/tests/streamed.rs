//! The random frames, and the options of the command.

use super::super::Options;
use super::super::frames::LONGEST;
use super::super::stream::Stream;
use super::{Fallback, Frame, parsed};

fn written(words: &[&str]) -> Vec<u8> {
    let mut file = Vec::new();
    let options = Options::read(words).unwrap();
    options.write(&mut file).unwrap();
    file
}

#[test]
fn options_come_in_any_order() {
    let read = Options::read(&["--tapes", "5", "--reference", "--seed", "3"]).unwrap();
    assert_eq!((read.seed, read.tapes, read.reference), (3, Some(5), true));
    let recorded = Options::read(&[]).unwrap();
    assert_eq!((recorded.tapes, recorded.reference), (None, false));
    for wrong in [
        &["--seed"][..],
        &["--seed", "3"],
        &["--tapes", "x"],
        &["--frames", "1"],
    ] {
        assert_eq!(Options::read(wrong), None);
    }
}

#[test]
fn without_a_count_the_recorded_frames_are_written() {
    let frames = super::super::recorded();
    assert!(written(&[]) == frames);
    assert!(written(&["--reference"]) == frames);
}

#[test]
fn random_frames_are_the_same_every_time_and_over_both_implementations() {
    let file = written(&["--seed", "7", "--tapes", "3000"]);
    assert!(file == written(&["--tapes", "3000", "--seed", "7"]));
    assert!(file == written(&["--reference", "--tapes", "3000", "--seed", "7"]));
    assert!(file != written(&["--tapes", "3000"]));
    assert_eq!(parsed(&file).len(), 3_000);
}

#[test]
fn most_frames_are_short_and_most_symbols_are_in_long_ones() {
    let tapes = Stream::new(9).take(10_000);
    let frames: Vec<Frame> = tapes.map(|tape| Frame::of(&Fallback, tape)).collect();
    let (long, short): (Vec<&Frame>, Vec<&Frame>) =
        frames.iter().partition(|frame| frame.tape.len() > 1_000);
    assert!(long.len() > 50 && short.len() > 9_000);
    let symbols = |list: &[&Frame]| {
        list.iter()
            .map(|f| f.outcome.output.len() / 8)
            .sum::<usize>()
    };
    assert!(symbols(&long) > symbols(&short));
    assert_eq!(frames.iter().map(|f| f.tape.len()).max(), Some(LONGEST));
    for number in [0, 1, 2, 3, 4, 5, 6, 9, 10, 11] {
        let same = frames.iter().filter(|frame| frame.outcome.number == number);
        assert!(same.count() >= 20, "{number}");
    }
}
