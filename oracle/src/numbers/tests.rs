//! The recorded lines against plain definitions.

use super::*;
use crate::lines::{check_form, fields, single};

#[test]
fn lines_have_their_form() {
    check_form(recorded);
}

#[test]
fn every_letter_has_lines() {
    let text = recorded();
    for letter in "fnwsdlmij".chars() {
        assert!(text.lines().filter(|line| line.starts_with(letter)).count() > 200);
    }
}

#[test]
fn floors_are_the_greatest_whole_numbers_not_above() {
    for (letter, x, _, result) in recorded().lines().map(fields) {
        let (x, floor) = (f64::from_bits(x), f64::from_bits(result));
        if letter != 'f' {
            continue;
        }
        if x.abs() >= 4_503_599_627_370_496.0 || x == 0.0 {
            assert_eq!(floor.to_bits(), x.to_bits());
        } else if x.is_nan() {
            assert!(floor.is_nan());
        } else {
            assert!(floor <= x && x < floor + 1.0 && (floor as i64) as f64 == floor);
        }
    }
}

#[test]
fn narrowed_numbers_are_the_nearest_and_ties_are_even() {
    for (letter, x, _, result) in recorded().lines().map(fields) {
        let (x, narrow) = (f64::from_bits(x), single(result & 0xffff_ffff));
        if letter != 'n' || !x.is_finite() {
            continue;
        }
        assert_eq!(x.is_sign_negative(), narrow.is_sign_negative());
        // An infinity stands for the power of two that would come after the largest number.
        let edge = 340_282_366_920_938_463_463_374_607_431_768_211_456.0;
        let value = |y: f32| f64::from(y).clamp(-edge, edge);
        if x.abs() >= edge {
            assert!(narrow.is_infinite());
            continue;
        }
        let distance = (x - value(narrow)).abs();
        for neighbour in [narrow.next_up(), narrow.next_down()] {
            let other = (x - value(neighbour)).abs();
            assert!(
                distance < other || (distance == other && result % 2 == 0) || neighbour == narrow
            );
        }
    }
}

#[test]
fn limited_numbers_stay_within_the_limit() {
    for (letter, x, limit, result) in recorded().lines().map(fields) {
        let [x, limit, result] = match letter {
            'l' => [x, limit, result].map(|bits| f64::from(single(bits))),
            'm' => [x, limit, result].map(f64::from_bits),
            _ => continue,
        };
        assert!(!x.is_nan() && limit >= 0.0 && result.abs() <= limit);
        assert!(x.abs() > limit || result == x);
    }
}
