//! The recorded runs are in the form that README.md describes, and reach what they should. That both
//! implementations give them, and that the turned lists agree (Q7 and Q8 of docs/SPECIFICATION.md), is asked
//! wherever they are made.

use std::collections::HashSet;
use std::f64::consts::TAU;

use super::receiver::{Receiver, Values, octant, symbol_number};
use super::{CONSTELLATIONS, Turns, exported, recorded};
use crate::bits::SENTINEL;
use crate::kernels::costas::CostasConstellation;
use crate::kernels::symbol_sync::Ted;
use crate::lines::{Line, among, calls, check_width, fields};
use crate::script::{number, pair};
use crate::types::C32;
use crate::{carrier_runs, runs};

/// The letters of a record, in order.
const RECORD: &str = "abkshyfdgwlqe";

fn lines() -> Vec<Line> {
    recorded().lines().map(fields).collect()
}

/// The lines of these letters.
fn lines_of(letters: &str) -> Vec<Line> {
    let all = lines().into_iter();
    all.filter(|line| letters.contains(line.0)).collect()
}

/// The letters that begin a call.
const CALLS: &str = "nuzpjxr";

/// The number of a set-up's line.
fn number_of(line: &Line) -> u64 {
    line.3 / 16 % 16
}

/// The f32 of input, strobe buffer and output of a run's line.
fn lengths(line: &Line) -> [u64; 3] {
    [line.1 % (1 << 16), line.1 >> 16 & 0xffff, line.1 >> 32]
}

#[test]
fn the_lines_have_53_bytes_and_are_the_same_every_time() {
    let text = check_width(recorded);
    assert!(text.len() < 6_500_000);
}

#[test]
fn every_number_of_a_set_up_is_met_with_and_without_a_name() {
    for letter in ["n", "u"] {
        let met: HashSet<u64> = lines_of(letter).iter().map(number_of).collect();
        assert_eq!(met, (0..7).collect());
    }
    assert!(lines_of("u").iter().all(|line| line.3 / 2 % 8 == 0));
}

#[test]
fn timings_number_wins() {
    for timing in runs::listed(Ted::Gardner) {
        for carrier in carrier_runs::listed(CostasConstellation::Psk8) {
            let first = number(&timing.set_up::<C32>());
            let second = number(&carrier.set_up());
            let both = number(&Receiver::new(Values::named(timing, carrier)));
            assert_eq!(both, if first > 0 { first } else { second });
        }
    }
}

#[test]
fn minus_zero_is_accepted_as_deviation_and_as_offset() {
    let all = lines();
    let minus = (-0f64).to_bits();
    let accepted = |place: usize| all[place].0 == 'a';
    let deviations = (0..all.len()).filter(|&at| "nu".contains(all[at].0) && all[at].1 == minus);
    let offsets = (0..all.len()).filter(|&at| all[at].0 == 'c' && all[at].3 == minus);
    assert!(deviations.filter(|at| accepted(at + 1)).count() > 0);
    assert!(offsets.filter(|at| accepted(at + 2)).count() > 0);
}

#[test]
fn every_call_is_followed_by_the_whole_record() {
    for call in calls(&lines(), CALLS) {
        let refused = "nu".contains(call[0].0) && number_of(&call[0]) > 0;
        let letters: String = among(call, RECORD).iter().map(|line| line.0).collect();
        assert_eq!(letters, if refused { "" } else { RECORD });
    }
}

#[test]
fn runs_fit_the_buffers_and_are_refused_as_the_lengths_say() {
    let runs = lines_of("r");
    assert!(runs.len() > 3000);
    for run in &runs {
        let [input, strobes, output] = lengths(run);
        assert!([input, strobes, output].iter().all(|length| *length <= 180));
        let odd = [input, strobes, output].iter().any(|n| n % 2 == 1);
        assert_eq!(
            run.3,
            match (odd, strobes != output) {
                (true, _) => 8,
                (false, true) => 7,
                (false, false) => 0,
            }
        );
    }
    let odd: HashSet<[u64; 3]> = runs.iter().map(|l| lengths(l).map(|n| n % 2)).collect();
    // Each buffer is odd and even, in every way.
    assert_eq!(odd.len(), 8);
    let both = |line: &&Line| line.3 == 8 && lengths(line)[1] != lengths(line)[2];
    assert!(runs.iter().filter(both).count() > 40);
    for number in [7, 8] {
        assert!(runs.iter().filter(|l| l.3 == number).count() > 100);
    }
}

#[test]
fn a_refused_run_leaves_everything_as_it_was() {
    let all = lines();
    let fill = pair(SENTINEL, SENTINEL);
    for two in calls(&all, CALLS).windows(2) {
        let (before, call) = (two[0], two[1]);
        if call[0].0 == 'r' && call[0].3 > 0 {
            assert_eq!(among(before, RECORD), among(call, RECORD));
            let lent = among(call, "to");
            assert!(lent.iter().all(|l| [l.1, l.2, l.3] == [fill; 3]));
            assert_eq!(call[0].2, 0);
        }
    }
}

#[test]
fn the_count_is_the_sum_of_the_symbols_up_to_the_top() {
    let mut count = 0u64;
    let mut tops = 0;
    for call in calls(&lines(), CALLS) {
        let Some(record) = among(call, "q").first().copied() else {
            continue;
        };
        count = match call[0].0 {
            'r' => count.saturating_add(call[0].2 >> 32),
            'p' | 'x' => count,
            'j' => call[0].1,
            _ => 0,
        };
        assert_eq!(record.1, count);
        tops += u64::from(count == u64::MAX);
    }
    assert!(tops >= 10);
}

#[test]
fn a_conversion_leaves_the_record_as_it_was_and_is_too_large_above_32_bits() {
    let old = u64::from(u32::MAX);
    let mut met = HashSet::new();
    for two in calls(&lines(), CALLS).windows(2) {
        let (before, call) = (two[0], two[1]);
        if call[0].0 != 'x' {
            continue;
        }
        assert_eq!(among(before, RECORD), among(call, RECORD));
        let count = among(call, "q")[0].1;
        let fits = [count, 0, 0];
        let expected = if count <= old { fits } else { [0, 0, 100] };
        assert_eq!([call[0].1, call[0].2, call[0].3], expected);
        met.insert(count);
    }
    for count in [0, old - 1, old, old + 1, 1 << 33, u64::MAX] {
        assert!(met.contains(&count), "{count}");
    }
}

#[test]
fn every_part_of_a_record_is_there_to_be_lost_by_a_conversion() {
    for lines in [recorded(), exported()] {
        let all: Vec<Line> = lines.lines().map(fields).collect();
        let converted = calls(&all, CALLS);
        let converted = converted.into_iter().filter(|call| call[0].0 == 'x');
        let mut met = HashSet::new();
        let mut counts = HashSet::new();
        for call in converted {
            let word = |letter| among(call, letter).first().copied();
            met.insert((word("b").unwrap().3, word("e").unwrap().3 >> 33));
            counts.insert(word("q").unwrap().1);
        }
        assert_eq!(met.len(), 6, "each detector under each constellation");
        let old = u64::from(u32::MAX);
        assert!(
            [old - 1, old, u64::MAX - 1, u64::MAX]
                .iter()
                .all(|n| counts.contains(n))
        );
    }
    let all = lines();
    let held = |letter: &str, some: fn(&Line) -> bool| {
        let converted = calls(&all, CALLS)
            .into_iter()
            .filter(|call| call[0].0 == 'x');
        converted
            .filter(|call| some(&among(call, letter)[0]))
            .count()
    };
    // A midpoint that is held, an integrator that is at work, and a phase.
    assert!(held("f", |line| line.2 % 2 == 1) > 10);
    assert!(held("f", |line| line.1 != 0) > 50);
    assert!(held("e", |line| line.3 % (1 << 32) != 0) > 50);
}

#[test]
fn a_run_goes_on_from_a_converted_record_past_the_old_top() {
    let old = u64::from(u32::MAX);
    let all = lines();
    let count = |call: &[Line]| among(call, "q")[0].1;
    let passes = |two: &&[&[Line]]| {
        let [before, after] = [two[0], two[1]];
        [before[0].0, after[0].0] == ['x', 'r'] && count(before) <= old && count(after) > old
    };
    assert!(calls(&all, CALLS).windows(2).filter(passes).count() >= 5);
}

#[test]
fn every_pace_runs_under_every_constellation_with_both_detectors() {
    let mut met = HashSet::new();
    for call in calls(&lines(), CALLS) {
        if call[0].0 == 'r' && call[0].3 == 0 {
            let [a, b, l] = ["a", "b", "l"].map(|letter| among(call, letter)[0]);
            met.insert((a.1, b.3, l.3));
        }
    }
    for sps in runs::PACES.map(f64::to_bits) {
        for detector in 0..2 {
            for points in 0..3 {
                assert!(met.contains(&(sps, detector, points)));
            }
        }
    }
}

#[test]
fn lock_is_set_and_cleared_under_every_constellation() {
    for points in 0..CONSTELLATIONS.len() as u64 {
        let locks = lines_of("l").into_iter().filter(|l| l.3 == points);
        let locks: Vec<u64> = locks.map(|l| l.2).collect();
        let changes = |from: u64, to: u64| locks.windows(2).filter(|l| **l == [from, to]).count();
        assert!(changes(0, 1) >= 2 && changes(1, 0) >= 2);
        assert!(locks.iter().filter(|locked| **locked == 1).count() >= 10);
    }
}

#[test]
fn every_turn_is_met_under_every_constellation() {
    for points in CONSTELLATIONS {
        let code = u64::from(crate::fields::constellation_code(points));
        let of = |line: &Line| line.3 / 2 % 8 == code && number_of(line) == 0;
        let lines = lines_of("nu");
        let met: HashSet<u64> = lines.iter().filter(|l| of(l)).map(|l| l.3 >> 8).collect();
        let all = Turns::allowed(points);
        let all = all.iter().map(|t| u64::from(t.samples + 4 * t.phase));
        assert_eq!(met, all.collect());
    }
}

#[test]
fn the_octant_is_that_of_the_angle() {
    for degrees in (0u32..360).filter(|degrees| degrees % 45 != 0) {
        let (sine, cosine) = (TAU * f64::from(degrees) / 360.0).sin_cos();
        let y = C32::new(cosine as f32, sine as f32);
        assert_eq!(octant(y), u64::from(degrees / 45));
    }
}

#[test]
fn every_symbol_number_is_met() {
    let met: HashSet<(u64, u64)> = lines_of("m").iter().map(|l| (l.2, l.3)).collect();
    let all = [(0, 2), (1, 4), (2, 8)];
    let all = all
        .iter()
        .flat_map(|&(points, top)| (0..top).chain([255]).map(move |n| (points, n)));
    assert_eq!(met, all.collect());
}

#[test]
fn silence_and_nan_read_none_and_nothing_else_does() {
    let (zeros, nan) = ([0.0, -0.0], f32::NAN);
    let others = [1.0, -1.0, f32::from_bits(1), f32::INFINITY, -f32::INFINITY];
    let none = |re: f32, im: f32| {
        let read = CONSTELLATIONS.map(|points| symbol_number(points, C32::new(re, im)).is_none());
        assert!(read == [read[0]; 3], "{re} {im}");
        read[0]
    };
    for zero in zeros {
        assert!(zeros.iter().all(|&other| none(zero, other)));
    }
    for part in others.into_iter().chain(zeros).chain([nan]) {
        assert!(none(part, nan) && none(nan, part));
    }
    for part in others {
        assert!(
            others
                .iter()
                .chain(&zeros)
                .all(|&other| !none(part, other) && !none(other, part))
        );
    }
}

/// After j turns of a sample none stays none, and a number grows (Q12).
#[test]
fn a_turned_sample_reads_as_the_turned_number() {
    for line in lines_of("m") {
        let points = CONSTELLATIONS[line.2 as usize];
        let y = C32::new(
            f32::from_bits((line.1 >> 32) as u32),
            f32::from_bits(line.1 as u32),
        );
        let turned = [
            C32::new(-y.im, y.re),
            C32::new(-y.re, -y.im),
            C32::new(y.im, -y.re),
        ];
        for (turns, z) in (1..).zip(turned) {
            let (on, top) = [(turns / 2, 2), (turns, 4), (2 * turns, 8)][line.2 as usize];
            let expected = symbol_number(points, y).map(|number| (number + on) % top);
            if line.2 > 0 || turns == 2 {
                assert_eq!(symbol_number(points, z), expected, "{y:?} {turns}");
            }
        }
    }
}

#[test]
fn the_lines_for_the_library_are_short_and_have_every_code_and_number() {
    let lines: Vec<Line> = check_width(exported).lines().map(fields).collect();
    let set_ups = lines.iter().filter(|line| "nu".contains(line.0));
    let (refused, accepted): (Vec<&Line>, Vec<&Line>) = set_ups.partition(|l| number_of(l) > 0);
    let numbers: HashSet<u64> = refused.into_iter().map(number_of).collect();
    assert_eq!(numbers, (1..7).collect());
    let codes: HashSet<u64> = accepted.iter().map(|line| line.3 % 16).collect();
    assert_eq!(codes, (0..6).collect());
    for points in 0..3 {
        let read = lines
            .iter()
            .filter(|line| line.0 == 'm' && line.2 == points);
        let read: HashSet<u64> = read.map(|line| line.3).collect();
        assert!(read.contains(&255) && read.len() > 2);
    }
    let runs: Vec<&Line> = lines.iter().filter(|line| line.0 == 'r').collect();
    assert!(runs.iter().all(|run| {
        let [input, strobes, output] = lengths(run);
        input <= 6 && strobes < 6 && output < 6
    }));
    let answers: HashSet<u64> = runs.iter().map(|run| run.3).collect();
    assert_eq!(answers, [0, 7, 8].into());
}
