//! The recorded lines: which are there, and whether the second implementation agrees.

use std::collections::HashSet;

use super::*;
use crate::lines::{check_form, fields, single};
use crate::reference::open::{correction, cos_f32};

/// The lines of one letter: argument, second argument, result.
fn lines_of(letter: char) -> Vec<(u64, u64, u64)> {
    let text = recorded();
    let all = text.lines().map(fields);
    all.filter(|line| line.0 == letter)
        .map(|(_, x, y, result)| (x, y, result))
        .collect()
}

#[test]
fn lines_have_their_form() {
    check_form(recorded);
}

#[test]
fn every_letter_has_lines() {
    for letter in "ptu".chars() {
        assert!(lines_of(letter).len() > 2000);
    }
}

#[test]
fn every_index_has_its_four_fractions() {
    let asked: HashSet<u64> = lines_of('p').into_iter().map(|(x, _, _)| x).collect();
    for index in 0..4096u64 {
        for fraction in [0, 1, 524_288, 1_048_575] {
            assert!(asked.contains(&(index * 1_048_576 + fraction)));
        }
    }
}

#[test]
fn the_second_implementation_has_the_same_pairs() {
    for (phase, _, result) in lines_of('p') {
        let phase = u32::try_from(phase).unwrap();
        let before = phase.wrapping_sub(1 << 30);
        assert_eq!(result >> 32, wide(cos_f32(phase)));
        assert_eq!(result & 0xffff_ffff, wide(cos_f32(before)));
    }
}

#[test]
fn both_forms_and_the_second_implementation_have_the_same_steps() {
    for (x, _, result) in lines_of('t') {
        let v = single(x);
        assert_eq!(result, u64::from(phase_step_f32(v)));
        assert_eq!(result, u64::from(phase_step(f64::from(v), TURN)));
        assert_eq!(result, u64::from(correction(v)));
    }
}

#[test]
fn steps_are_asked_of_every_kind_of_f32() {
    let asked: Vec<f32> = lines_of('t')
        .into_iter()
        .map(|(x, _, _)| single(x))
        .collect();
    for negative in [false, true] {
        let has = |kind: fn(&f32) -> bool| {
            let mut signed = asked.iter().filter(|v| v.is_sign_negative() == negative);
            signed.any(kind)
        };
        assert!(has(|v| v.is_nan()) && has(|v| v.is_infinite()));
        assert!(has(|v| *v == 0.0) && has(|v| v.is_subnormal()));
        assert!(has(|v| v.abs() == 16_384.0) && has(|v| v.abs() == 16_384f32.next_down()));
    }
    let halves = asked.iter().map(|v| f64::from(*v) * TURN);
    assert!(
        halves
            .filter(|units| (units - units.floor()) == 0.5)
            .count()
            > 100
    );
}

#[test]
fn steps_are_asked_on_both_sides_of_each_edge() {
    let steps = lines_of('u');
    let sums: Vec<f64> = steps
        .into_iter()
        .map(|(x, k, _)| f64::from_bits(x) * f64::from_bits(k) + 0.5)
        .collect();
    for edge in [51, 52, 53, 63].map(|exponent| 2f64.powi(exponent)) {
        for edge in [edge, -edge] {
            // Not every neighbour is a sum: the half that is added may be a tie.
            let width = edge.abs() * 2f64.powi(-51);
            assert!(sums.contains(&edge));
            assert!(sums.iter().any(|sum| edge - width <= *sum && *sum < edge));
            assert!(sums.iter().any(|sum| edge < *sum && *sum <= edge + width));
        }
    }
    assert!(sums.contains(&f64::INFINITY) && sums.contains(&f64::NEG_INFINITY));
    assert!(sums.iter().any(|sum| sum.is_nan()));
    let whole = sums.iter().filter(|sum| sum.fract() == 0.0).count();
    assert!(whole > 100 && whole < sums.len() - 1000);
}
