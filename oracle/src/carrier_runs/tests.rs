//! The recorded runs are in the form that README.md describes, and reach what they should. That both
//! implementations give them is asked wherever they are made.

use std::collections::HashSet;
use std::f64::consts::TAU;

use super::set_ups::MIDDLES;
use super::{CONSTELLATIONS, recorded};
use crate::bits::SENTINEL;
use crate::lines::{Line, among, calls, check_width, fields, single};
use crate::script::pair;

fn lines() -> Vec<Line> {
    recorded().lines().map(fields).collect()
}

/// The lines of one letter.
fn lines_of(letter: char) -> Vec<Line> {
    let all = lines().into_iter();
    all.filter(|line| line.0 == letter).collect()
}

/// The letters that begin a call.
const CALLS: &str = "nzpqr";

#[test]
fn the_lines_have_53_bytes_and_are_the_same_every_time() {
    let count = check_width(recorded).lines().count();
    assert!(count > 30_000 && count < 50_000);
}

#[test]
fn every_number_of_a_set_up_is_met_under_every_constellation() {
    let met: HashSet<(u64, u64)> = lines_of('n').iter().map(|l| (l.1, l.3)).collect();
    let all = (0..3).flat_map(|points| [0, 2, 3, 4].map(|number| (points, number)));
    assert_eq!(met, all.collect());
}

#[test]
fn every_call_is_followed_by_the_whole_state() {
    for call in calls(&lines(), CALLS) {
        let refused = call[0].0 == 'n' && call[0].3 > 0;
        let letters: String = among(call, "aksl").iter().map(|line| line.0).collect();
        assert_eq!(letters, if refused { "" } else { "aksl" });
    }
}

#[test]
fn runs_fit_the_buffers_and_are_refused_with_both_numbers() {
    let runs = lines_of('r');
    assert!(runs.len() > 2000);
    for (_, lengths, _, number) in &runs {
        let (input, output) = (lengths % (1 << 32), lengths >> 32);
        assert!(input <= 180 && output <= 180);
        let odd = input % 2 == 1 || output % 2 == 1;
        let uneven = input != output;
        assert_eq!(
            *number,
            match (odd, uneven) {
                (true, _) => 8,
                (false, true) => 7,
                (false, false) => 0,
            }
        );
    }
    for number in [7, 8] {
        assert!(runs.iter().filter(|l| l.3 == number).count() > 40);
    }
}

#[test]
fn a_refused_run_leaves_everything_as_it_was() {
    let all = lines();
    let fill = pair(SENTINEL, SENTINEL);
    for two in calls(&all, CALLS).windows(2) {
        let (before, call) = (two[0], two[1]);
        if call[0].0 == 'r' && call[0].3 > 0 {
            assert_eq!(among(before, "aksl"), among(call, "aksl"));
            let output = among(call, "o");
            assert!(output.iter().all(|l| [l.1, l.2, l.3] == [fill; 3]));
        }
    }
}

#[test]
fn lock_is_set_and_cleared_under_every_constellation() {
    for points in 0..CONSTELLATIONS.len() as u64 {
        let locks = lines_of('l').into_iter().filter(|l| l.3 == points);
        let locks: Vec<u64> = locks.map(|l| l.2).collect();
        let changes = |from: u64, to: u64| locks.windows(2).filter(|l| **l == [from, to]).count();
        assert!(changes(0, 1) >= 3 && changes(1, 0) >= 3);
    }
}

#[test]
fn frequencies_lie_at_both_limits_and_inside() {
    let all = lines();
    let states: Vec<Vec<Line>> = calls(&all, CALLS)
        .iter()
        .map(|call| among(call, "ks"))
        .collect();
    let set = states.iter().filter(|lines| lines.len() == 2);
    let pairs: Vec<[f32; 2]> = set.map(|l| [single(l[1].2), single(l[0].3)]).collect();
    assert!(pairs.iter().all(|[freq, max]| freq.abs() <= *max));
    for side in [1.0, -1.0] {
        let at = pairs
            .iter()
            .filter(|[f, max]| *max > 0.0 && *f == side * max);
        assert!(at.count() > 20);
        let inside = pairs
            .iter()
            .filter(|[f, max]| side * f > 0.0 && f.abs() < *max);
        assert!(inside.count() > 200);
    }
}

#[test]
fn a_gain_of_each_middle_is_next_to_one() {
    for [bandwidth, damping] in MIDDLES.map(|pair| pair.map(f64::from_bits)) {
        let theta = bandwidth / (damping + 1.0 / (4.0 * damping));
        let d = (1.0 + (2.0 * damping) * theta) + theta * theta;
        let kp = (((4.0 * damping) * theta) / d) / TAU;
        let ki = ((4.0 * (theta * theta)) / d) / TAU;
        // An f64 has 29 places more than an f32.
        let off = |x: f64| (x.to_bits() % (1 << 29)).abs_diff(1 << 28);
        assert!(off(kp) <= 1 || off(ki) <= 1);
    }
}

#[test]
fn frequencies_and_levels_are_flushed_and_just_not() {
    let just_not = |x: f32| (1e-30..1.001e-30).contains(&x.abs());
    let freqs: Vec<f32> = lines_of('s').iter().map(|l| single(l.2)).collect();
    assert!(freqs.iter().filter(|x| just_not(**x)).count() > 20);
    let levels: Vec<f32> = lines_of('l').iter().map(|l| single(l.1)).collect();
    let falls = levels
        .windows(2)
        .filter(|l| l[1] == 0.0 && l[0].abs() < 1e-28);
    assert!(falls.filter(|l| l[0] > 0.0).count() > 0);
}
