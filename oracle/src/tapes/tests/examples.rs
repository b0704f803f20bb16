//! Tapes whose answers were worked out by hand.
//!
//! At 2 samples per symbol, fresh and without deviation, the first symbol is the second sample (X14). The
//! position is then 2 and the fraction 0, so that with two samples more the next one is the fourth. Real
//! samples have no error under BPSK: the carrier's phase stays 0, and the symbols are the samples.

use super::{bytes, given};

/// Mueller-Müller, 2 samples per symbol, bandwidth 0.01, damping 1, deviation 0, gain 1.
const TIMING: &str =
    "02 01 0000000000000040 7b14ae47e17a843f 000000000000f03f 0000000000000000 000000000000f03f";
/// BPSK, bandwidth 0.01, damping 1, offset 0.
const CARRIER: &str = "01 00 7b14ae47e17a843f 000000000000f03f 0000000000000000";
/// 1, 2, 3 and 4; then 5 and 6; then 7 and 8.
const FOUR: &str = "03 0400 0000803f00000000 0000004000000000 0000404000000000 0000804000000000";
const TWO: &str = "03 0200 0000a04000000000 0000c04000000000";
const LAST: &str = "03 0200 0000e04000000000 0000004100000000";
/// No samples.
const NONE: &str = "03 0000";
const RESET: &str = "04";

/// The symbols 2, 4 and 6.
const SECOND: &str = "0000004000000000";
const FOURTH: &str = "0000804000000000";
const SIXTH: &str = "0000c04000000000";

/// The whole tape is played, and gives this.
fn check(commands: &[&str], symbols: &[&str]) {
    let tape = bytes(&commands.concat());
    let outcome = given(&tape);
    assert_eq!((outcome.number, outcome.stop), (0, tape.len()));
    assert_eq!(outcome.output, bytes(&symbols.concat()));
}

#[test]
fn the_first_symbol_is_the_second_sample_whichever_loop_comes_first() {
    check(&[TIMING, CARRIER, FOUR], &[SECOND]);
    check(&[CARRIER, TIMING, FOUR], &[SECOND]);
    assert_eq!(bytes(&[TIMING, CARRIER, FOUR].concat()).len(), 103);
}

#[test]
fn a_command_goes_on_from_where_the_last_one_left() {
    check(&[TIMING, CARRIER, FOUR, TWO], &[SECOND, FOURTH]);
    check(&[TIMING, CARRIER, FOUR, NONE, TWO], &[SECOND, FOURTH]);
    check(&[TIMING, CARRIER, NONE, FOUR, TWO, NONE], &[SECOND, FOURTH]);
}

#[test]
fn a_tape_without_samples_gives_nothing() {
    check(&[], &[]);
    check(&[TIMING], &[]);
    check(&[CARRIER, CARRIER], &[]);
    check(&[TIMING, CARRIER, RESET, RESET, NONE], &[]);
}

#[test]
fn a_repeated_carrier_leaves_the_timing_loop_where_it_was() {
    check(&[TIMING, CARRIER, FOUR, CARRIER, TWO], &[SECOND, FOURTH]);
}

#[test]
fn a_repeated_timing_loop_begins_anew() {
    check(&[TIMING, CARRIER, FOUR, TIMING, TWO], &[SECOND]);
    check(
        &[TIMING, CARRIER, FOUR, TIMING, TWO, LAST],
        &[SECOND, SIXTH],
    );
    check(&[TIMING, CARRIER, FOUR, RESET, TWO, LAST], &[SECOND, SIXTH]);
}

#[test]
fn before_both_are_there_the_last_set_up_of_a_loop_counts() {
    // With 1,000,000 samples per symbol there is a first symbol too, but no second one.
    let slow = TIMING.replace("0000000000000040", "0000000080842e41");
    check(&[TIMING, &slow, CARRIER, FOUR, TWO], &[SECOND]);
    check(&[&slow, TIMING, CARRIER, FOUR, TWO], &[SECOND, FOURTH]);
}

#[test]
fn any_nan_is_written_with_the_one_pattern() {
    for pattern in ["0000c07f", "452381ff", "010080ff"] {
        let broken = FOUR.replace("00000040", pattern);
        check(&[TIMING, CARRIER, &broken], &["0000c07f0000c07f"]);
    }
}
