//! The cases X5 to X8 and X13 to X21 of docs/SPECIFICATION.md, and the example script.

use super::*;
use crate::{Fallback, Reference};

const CASES: &str = include_str!("../../scripts/cases.txt");
const ANSWERS: &str = include_str!("../../scripts/cases_answers.txt");

/// The values of a timing set-up after the pace and the detector.
const REST: &str = "3f847ae147ae147b 3ff0000000000000 3f747ae147ae147b 3ff0000000000000";
const TWO: &str = "4000000000000000";
const FOUR: &str = "4010000000000000";

fn answers<K: Kernel>(kernel: K, script: &str) -> Result<Vec<String>, String> {
    let mut text = String::new();
    play(kernel, script, &mut text)?;
    Ok(text.lines().map(str::to_string).collect())
}

/// The last answer, which both implementations must give.
fn last(script: &str) -> String {
    let first = answers(Fallback, script).unwrap();
    assert_eq!(first, answers(Reference, script).unwrap());
    first.last().unwrap().clone()
}

/// Samples 1, 2, 3 and so on, with imaginary parts of zero if complex.
fn samples(kind: &str, count: usize) -> String {
    let zero = if kind == "complex" { " 00000000" } else { "" };
    (1..=count)
        .map(|k| format!(" {}{zero}", hex32(k as f32)))
        .collect()
}

/// A run of a fresh loop.
fn fresh_run(kind: &str, sps: &str, ted: u8, count: usize, places: usize) -> String {
    let input = samples(kind, count);
    last(&format!(
        "{kind} new {sps} {ted} {REST}\n{kind} run {places}{input}"
    ))
}

#[test]
fn the_example_script_gives_its_answers() {
    let expected: Vec<&str> = ANSWERS.lines().collect();
    assert_eq!(answers(Fallback, CASES).unwrap(), expected);
    assert_eq!(answers(Reference, CASES).unwrap(), expected);
}

#[test]
fn fresh_runs_with_a_pace_of_two() {
    for ted in [0, 1] {
        assert_eq!(fresh_run("real", TWO, ted, 3, 1), "ran 3 0 : deadbeef");
        assert_eq!(fresh_run("real", TWO, ted, 4, 1), "ran 4 1 : 40000000");
        assert_eq!(fresh_run("real", TWO, ted, 4, 0), "ran 3 0 :");
        assert_eq!(
            fresh_run("complex", TWO, ted, 4, 1),
            "ran 4 1 : 40000000 00000000"
        );
    }
}

#[test]
fn fresh_runs_with_a_pace_of_four() {
    for kind in ["real", "complex"] {
        assert!(fresh_run(kind, FOUR, 0, 6, 1).starts_with("ran 5 1 :"));
        assert!(fresh_run(kind, FOUR, 1, 6, 1).starts_with("ran 6 1 :"));
    }
}

#[test]
fn refused_set_ups_give_the_lowest_number() {
    let timing = |values: &str| last(&format!("real new {values}"));
    let under_two = "3fffffffffffffff";
    let nan = "7ff8000000000000";
    assert_eq!(timing(&format!("{under_two} 0 {REST}")), "refused 1");
    assert_eq!(
        timing(&format!("{nan} 0 {nan} {nan} {nan} {nan}")),
        "refused 1"
    );
    assert_eq!(
        timing(&format!("{TWO} 0 {nan} {nan} {nan} {nan}")),
        "refused 2"
    );
    let bandwidth = "3f847ae147ae147b";
    assert_eq!(
        timing(&format!("{TWO} 0 {bandwidth} {nan} {nan} {nan}")),
        "refused 3"
    );
    let damped = format!("{TWO} 0 {bandwidth} 3ff0000000000000");
    assert_eq!(timing(&format!("{damped} {nan} {nan}")), "refused 4");
    let pulled = format!("{damped} 3f747ae147ae147b");
    assert_eq!(timing(&format!("{pulled} 0000000000000000")), "refused 5");
    assert_eq!(timing(&format!("{pulled} 0000000000000001")), "refused 6");
    let carrier = |values: &str| last(&format!("carrier new 1 {values}"));
    assert_eq!(carrier(&format!("{nan} {nan} {nan}")), "refused 2");
    assert_eq!(carrier(&format!("{bandwidth} {nan} {nan}")), "refused 3");
    assert_eq!(
        carrier(&format!("{bandwidth} 3ff0000000000000 {nan}")),
        "refused 4"
    );
}

#[test]
fn uneven_carrier_buffers_are_refused_and_untouched() {
    let script = "carrier new 1 3f847ae147ae147b 3ff0000000000000 3fa999999999999a\n\
                  carrier run 2 3f800000 3f800000";
    assert_eq!(
        last(script),
        "refused 7 : deadbeef deadbeef deadbeef deadbeef"
    );
}

#[test]
fn phase_steps_of_the_cases() {
    assert_eq!(last("phase_step 2f000000"), "00000001");
    assert_eq!(last("phase_step af000000"), "00000000");
    assert_eq!(last("phase_step afc00000"), "ffffffff");
    assert_eq!(last("phase_step 4f000000"), "ffffffff");
    assert_eq!(last("phase_step cf000000"), "00000000");
    assert_eq!(last("phase_step64 bdf8000000000000"), "ffffffff");
}

#[test]
fn the_oscillator_at_quarter_turns() {
    assert_eq!(last("pair 00000000"), "3f800000 00000000");
    assert_eq!(last("pair 40000000"), "00000000 3f800000");
    assert_eq!(last("pair 80000000"), "bf800000 00000000");
    assert_eq!(last("pair c0000000"), "00000000 bf800000");
}

/// Runs BPSK samples at phase 0 and frequency 0 and gives the state. A sample on an axis has
/// no error, so phase and frequency stay.
fn after(samples: &[C32]) -> CostasState {
    let mut state = CostasState::new(CostasConstellation::Bpsk, 0.01, 1.0, 0.05).unwrap();
    let mut output = vec![C32::default(); samples.len()];
    Fallback.costas(&mut state, samples, &mut output).unwrap();
    state
}

/// A last sample that brings the level exactly to the target.
fn sample_for_level(before: &[C32], target: f32) -> C32 {
    let level = f64::from(after(before).level);
    let measure = level + (f64::from(target) - level) / 0.01;
    let start = ((1.0 - measure) / (1.0 + measure)).sqrt() as f32;
    (0..10_000)
        .map(|step| C32::new(1.0, start + (step - 5_000) as f32 * 1e-7))
        .find(|sample| after(&[before, &[*sample]].concat()).level == target)
        .expect("a sample that hits the level")
}

#[test]
fn a_level_of_one_half_sets_no_lock() {
    let rise = vec![C32::new(1.0, 0.0); 68];
    assert!(!after(&rise).locked);
    let hit = sample_for_level(&rise, 0.5);
    let state = after(&[&rise[..], &[hit]].concat());
    assert_eq!((state.level, state.locked), (0.5, false));
    let above = sample_for_level(&rise, 0.5f32.next_up());
    assert!(after(&[&rise[..], &[above]].concat()).locked);
}

#[test]
fn a_level_of_three_tenths_clears_no_lock() {
    let mut fall = vec![C32::new(1.0, 0.0); 70];
    fall.extend([C32::new(0.0, 1.0); 14]);
    assert!(after(&fall).locked);
    let hit = sample_for_level(&fall, 0.3);
    let state = after(&[&fall[..], &[hit]].concat());
    assert_eq!((state.level, state.locked), (0.3, true));
    let below = sample_for_level(&fall, 0.3f32.next_down());
    assert!(!after(&[&fall[..], &[below]].concat()).locked);
}

#[test]
fn a_line_that_cannot_be_read_stops_the_script() {
    for script in [
        "floor 3ff",
        "real state",
        "carrier new 3 0000000000000000 0000000000000000 0000000000000000",
        "complex run 1 00000000",
        "limit32 00000000 bf800000",
        "dance",
    ] {
        let message = answers(Fallback, script).unwrap_err();
        assert!(message.starts_with("line 1: "), "{message}");
    }
}
