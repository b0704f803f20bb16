//! The comparison is clean, reaches what it should, and finds and shrinks differences that are planted.

use super::found::play;
use super::judge::Match;
use super::ops::Op;
use super::session::Session;
use super::*;
use crate::Fallback;
use crate::play as script;

mod planted;

/// The operations of a session, as lines.
fn lines_of(seed: u64, index: u64) -> String {
    let mut session = Session::new(seed, index);
    let kind = session.lane.kind;
    let mut game = Match::new(kind, library(kind), false);
    let mut ops: Vec<Op> = Vec::new();
    while let Some(op) = session.next(ops.last(), game.seen()) {
        assert!(game.play(&op, &mut Counts::default()).is_none());
        ops.push(op);
    }
    write::lines(kind, &ops)
}

#[test]
fn options_come_in_any_order() {
    let read = options(&["--seconds", "5", "--seed", "3"]).unwrap();
    assert_eq!((read.seed, read.seconds, read.symbols), (3, Some(5), None));
    assert_eq!(options(&[]).unwrap().symbols, Some(SYMBOLS));
    assert_eq!(options(&["--session", "8"]).unwrap().session, Some(8));
    for wrong in [&["--seed"][..], &["--seed", "x"], &["--speed", "1"]] {
        assert_eq!(options(wrong), None);
    }
}

#[test]
fn a_session_depends_on_seed_and_index_alone() {
    for index in 0..24 {
        let first = lines_of(5, index);
        assert_eq!(first, lines_of(5, index));
        assert_ne!(first, lines_of(6, index));
    }
}

#[test]
fn a_short_comparison_is_clean_and_meets_every_refusal() {
    let options = options(&["--seed", "7", "--symbols", "200000"]).unwrap();
    let report = run(&options, library);
    assert!(report.clean, "{}", report.text);
    let numbers = report
        .text
        .lines()
        .find(|line| line.starts_with("refusals"));
    for number in 1..9 {
        assert!(numbers.unwrap().contains(&format!("{number}: ")));
    }
}

#[test]
fn one_session_can_be_made_again() {
    let options = options(&["--seed", "7", "--session", "3"]).unwrap();
    let report = run(&options, library);
    assert!(report.clean);
    assert!(report.text.starts_with("seed 7, sessions 3 to 3, "));
}

#[test]
fn a_script_can_be_played() {
    let mut played = 0;
    for index in (0..60).filter(|index| index % 4 != 3) {
        let lines = lines_of(9, index);
        // A call that is refused for an f32 left over, or a code that has no name, is no script's.
        if lines.contains("lend") || lines.len() > 1_000_000 {
            continue;
        }
        let mut answers = String::new();
        if script::play(Fallback, &lines, &mut answers).is_ok() {
            assert_eq!(answers.lines().count(), lines.lines().count());
            played += 1;
        }
    }
    assert!(played > 10);
}
