//! The recorded runs are in the form that README.md describes, and reach what they should.

use super::recorded;
use crate::lines::{check_width, fields};

fn lines() -> Vec<(char, u64, u64, u64)> {
    recorded().lines().map(fields).collect()
}

#[test]
fn the_lines_have_53_bytes_and_are_the_same_every_time() {
    check_width(recorded);
}

#[test]
fn every_number_of_a_set_up_is_met() {
    for number in 0..7 {
        assert!(lines().iter().any(|l| l.0 == 'n' && l.3 / 16 == number));
    }
}

#[test]
fn a_few_thousand_runs_fit_the_buffers() {
    let runs: Vec<_> = lines().into_iter().filter(|l| l.0 == 'r').collect();
    assert!(runs.len() > 2000);
    assert!(
        runs.iter()
            .all(|l| l.1 % (1 << 32) <= 180 && l.1 >> 32 <= 180)
    );
    assert!(runs.iter().any(|l| l.3 == 8));
    // Runs that produce nothing, that stop with places left, and that fill all of them.
    assert!(runs.iter().any(|l| l.2 >> 32 == 0));
    assert!(runs.iter().any(|l| l.2 >> 32 > 3));
}

#[test]
fn the_middle_is_held_between_calls() {
    assert!(lines().iter().any(|l| l.0 == 'f' && l.2 == 3));
}
