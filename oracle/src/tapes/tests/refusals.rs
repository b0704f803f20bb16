//! What is refused, with which number and where; and in which order.

use super::{bytes, given};

/// Set-ups that are accepted: 42 and 26 bytes.
const TIMING: &str =
    "02 00 0000000000000040 7b14ae47e17a843f 000000000000f03f 0000000000000000 000000000000f03f";
const CARRIER: &str = "01 01 7b14ae47e17a843f 000000000000f03f 0000000000000000";
/// A NaN, and the least number above 0 (5e-324).
const NAN: &str = "000000000000f87f";
const LEAST: &str = "0100000000000000";
/// 2 and the number below it; 0.01; 1; 0.
const TWO: &str = "0000000000000040";
const BELOW: &str = "ffffffffffffff3f";
const CENT: &str = "7b14ae47e17a843f";
const ONE: &str = "000000000000f03f";
const ZERO: &str = "0000000000000000";
const MINUS_ZERO: &str = "0000000000000080";
/// A sample.
const SAMPLE: &str = "0000803f00000000";

/// The number and the stopping place of a tape that gives nothing.
fn refused(commands: &[&str]) -> (u32, usize) {
    let outcome = given(&bytes(&commands.concat()));
    assert_eq!(outcome.output, []);
    (outcome.number, outcome.stop)
}

#[test]
fn a_byte_that_is_not_defined_is_9_as_soon_as_it_is_read() {
    for command in ["00", "05", "41", "ff"] {
        assert_eq!(refused(&[command]), (9, 1));
        assert_eq!(refused(&[command, CARRIER]), (9, 1));
        assert_eq!(refused(&[TIMING, CARRIER, command]), (9, 69));
    }
    for selector in ["01 03", "01 04", "01 ff", "02 02", "02 ff"] {
        assert_eq!(refused(&[selector]), (9, 2));
        assert_eq!(refused(&[TIMING, selector]), (9, 44));
        assert_eq!(refused(&[CARRIER, TIMING, selector, ZERO]), (9, 70));
    }
}

#[test]
fn a_count_above_the_most_is_9_once_both_bytes_are_read() {
    for count in ["0108", "0009", "ffff"] {
        assert_eq!(refused(&["03", count]), (9, 3));
        assert_eq!(refused(&[CARRIER, "03", count]), (9, 29));
        assert_eq!(refused(&[TIMING, CARRIER, "03", count, SAMPLE]), (9, 71));
    }
    for half in ["03", "03 01", "03 ff"] {
        assert_eq!(refused(&[half]), (10, bytes(half).len()));
    }
}

#[test]
fn samples_and_resets_are_11_while_a_set_up_is_missing() {
    for count in ["0000", "0100", "0008"] {
        assert_eq!(refused(&["03", count]), (11, 3));
        assert_eq!(refused(&["03", count, SAMPLE]), (11, 3));
        assert_eq!(refused(&[TIMING, "03", count]), (11, 45));
        assert_eq!(refused(&[CARRIER, CARRIER, "03", count]), (11, 55));
    }
    assert_eq!(refused(&["04"]), (11, 1));
    assert_eq!(refused(&["04", "00"]), (11, 1));
    assert_eq!(refused(&[TIMING, TIMING, "04"]), (11, 85));
    assert_eq!(refused(&[CARRIER, "04", TIMING]), (11, 27));
}

#[test]
fn a_tape_that_ends_inside_a_command_is_10() {
    for (before, set_up) in [("", TIMING), (CARRIER, CARRIER), (TIMING, CARRIER)] {
        let tape = bytes(&[before, set_up].concat());
        let first = bytes(before).len() + 1;
        for end in first..tape.len() {
            let outcome = given(&tape[..end]);
            assert_eq!((outcome.number, outcome.stop), (10, end));
        }
    }
    let both = [TIMING, CARRIER].concat();
    for (more, length) in [("", 71), ("00", 72), (SAMPLE, 79), ("0000803f000000", 78)] {
        assert_eq!(refused(&[&both, "03 0200", more]), (10, length));
        assert_eq!(refused(&[&both, "03 0008", more]), (10, length));
    }
}

#[test]
fn a_loops_own_check_comes_when_all_its_fields_are_read() {
    let wrong = ["01 00", NAN, ONE, ZERO].concat();
    assert_eq!(refused(&[&wrong]), (2, 26));
    assert_eq!(refused(&[&wrong[..wrong.len() - 2]]), (10, 25));
    let wrong = ["02 00", BELOW, CENT, ONE, ZERO, ONE].concat();
    assert_eq!(refused(&[&wrong]), (1, 42));
    assert_eq!(refused(&[&wrong, TIMING]), (1, 42));
    assert_eq!(refused(&[&wrong[..wrong.len() - 2]]), (10, 41));
    assert_eq!(refused(&[CARRIER, &wrong]), (1, 68));
    assert_eq!(refused(&[TIMING, CARRIER, &wrong]), (1, 110));
    assert_eq!(refused(&[CARRIER, TIMING, TIMING, &wrong]), (1, 152));
}

#[test]
fn the_lowest_number_is_answered_and_9_comes_before_it() {
    for (number, values) in [
        (1, [NAN, NAN, NAN, NAN, NAN]),
        (2, [TWO, NAN, NAN, NAN, NAN]),
        (3, [TWO, CENT, NAN, NAN, NAN]),
        (4, [TWO, CENT, ONE, NAN, NAN]),
        (5, [TWO, CENT, ONE, ZERO, NAN]),
        (5, [TWO, CENT, ONE, ZERO, MINUS_ZERO]),
        (6, [TWO, CENT, ONE, MINUS_ZERO, LEAST]),
    ] {
        let values = values.concat();
        assert_eq!(refused(&["02 01", &values]), (number, 42));
        assert_eq!(refused(&["02 02", &values]), (9, 2));
    }
    for (number, values) in [
        (2, [NAN, NAN, NAN]),
        (3, [CENT, NAN, NAN]),
        (4, [CENT, ONE, NAN]),
    ] {
        let values = values.concat();
        assert_eq!(refused(&["01 02", &values]), (number, 26));
        assert_eq!(refused(&["01 03", &values]), (9, 2));
    }
    assert_eq!(refused(&["01 02", CENT, ONE, MINUS_ZERO]), (0, 26));
    assert_eq!(
        refused(&["02 01", TWO, CENT, ONE, MINUS_ZERO, ONE]),
        (0, 42)
    );
}

#[test]
fn what_earlier_commands_gave_stays() {
    let samples = ["03 0400", SAMPLE, SAMPLE, SAMPLE, SAMPLE].concat();
    let good = [TIMING, CARRIER, &samples].concat();
    let symbol = given(&bytes(&good)).output;
    assert_eq!(symbol.len(), 8);
    for (more, number, length) in [
        ("07", 9, 1),
        ("02 03", 9, 2),
        ("03 0108", 9, 3),
        ("03 0400", 10, 3),
        (&["01 00", NAN, ONE, ZERO].concat(), 2, 26),
    ] {
        let outcome = given(&bytes(&[&good, more].concat()));
        assert_eq!((outcome.number, outcome.stop), (number, 103 + length));
        assert_eq!(outcome.output, symbol);
    }
}
