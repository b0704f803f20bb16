//! Differences that are planted between the library and the comparison: each is found, and the session
//! is shrunk to what is needed.

use super::*;
use crate::fields::Value;
use crate::scale::found::Found;
use crate::scale::lanes::Kind;
use crate::scale::machine::Side;
use crate::scale::sheet::Slate;

/// Changes what a side shows after an operation. The last argument counts what the plant likes.
type Plant = fn(&Op, &mut Slate, &mut usize);

/// The library with a plant.
struct Planted {
    library: Box<dyn Side>,
    plant: Plant,
    memory: usize,
}

impl Side for Planted {
    fn play(&mut self, op: &Op, slate: &mut Slate) {
        self.library.play(op, slate);
        (self.plant)(op, slate, &mut self.memory);
    }
}

fn planted(kind: Kind, plant: Plant) -> Box<dyn Side> {
    Box::new(Planted {
        library: library(kind),
        plant,
        memory: 0,
    })
}

/// The first session that differs, shrunk.
fn shrunk(ours: Ours) -> Found {
    let mut rows = vec![Counts::default(); Lane::all().len()];
    let found = (0..2_000).find_map(|index| play(11, index, ours, &mut rows));
    found.expect("a session that differs").shrunk(ours).0
}

fn produced(slate: &Slate) -> usize {
    slate.sheet.found("produced").unwrap_or(0)
}

/// The calls of a list: the f32 of input, and the places.
fn calls(found: &Found) -> Vec<(usize, usize)> {
    let calls = found.ops.iter().filter_map(|op| match op {
        Op::Run(run) => Some((run.input.len(), run.places)),
        _ => None,
    });
    calls.collect()
}

/// Flips a bit of the first output if a symbol comes of an input with a large value.
fn large_value(op: &Op, slate: &mut Slate, _: &mut usize) {
    let Op::Run(run) = op else { return };
    if produced(slate) > 0 && run.input.iter().any(|x| x.is_finite() && x.abs() > 1e30) {
        slate.output[0] = f32::from_bits(slate.output[0].to_bits() ^ 1);
    }
}

#[test]
fn an_output_that_turns_on_one_value() {
    let found = shrunk(|kind| planted(kind, large_value));
    let text = found.text();
    assert_eq!(found.ops.len(), 2, "{text}");
    let Op::Run(run) = &found.ops[1] else {
        panic!("{text}")
    };
    assert!(run.input.len() <= 8 && run.places <= 2, "{text}");
    let plain = run.input.iter().filter(|x| **x == 0.0 || **x == 1.0);
    assert_eq!(plain.count(), run.input.len() - 1, "{text}");
    assert!(text.contains("# output, f32 0: ours"), "{text}");
}

#[test]
fn the_report_has_the_session_and_the_difference() {
    let options = options(&["--seed", "11"]).unwrap();
    let report = run(&options, |kind| planted(kind, large_value));
    assert!(!report.clean);
    let told: Vec<&str> = report.text.lines().rev().take(6).collect();
    let [place, theirs, ours, call, set_up, head] = told[..] else {
        panic!("{}", report.text)
    };
    assert!(head.starts_with("DIFFERENCE in session "), "{head}");
    assert!(set_up.contains(" new "), "{set_up}");
    assert!(call.contains(" run "), "{call}");
    assert!(ours.starts_with("# ours answers: ran "), "{ours}");
    assert!(theirs.starts_with("# Fallback answers: ran "), "{theirs}");
    assert!(place.starts_with("# output, f32 0: ours "), "{place}");
}

/// Flips the last bit of the fraction after the third call since a set-up that gave symbols.
fn third_call(op: &Op, slate: &mut Slate, calls: &mut usize) {
    match op {
        Op::SetUp(_) => *calls = 0,
        _ => *calls += usize::from(produced(slate) > 0),
    }
    if *calls == 3 {
        slate.sheet.change("mu", |value| match value {
            Value::Double(x) => Value::Double(f64::from_bits(x.to_bits() ^ 1)),
            other => other,
        });
    }
}

#[test]
fn a_field_that_turns_on_the_third_call() {
    let found = shrunk(|kind| planted(kind, third_call));
    let text = found.text();
    let calls = calls(&found);
    assert_eq!((found.ops.len(), calls.len()), (4, 3), "{text}");
    let parts = found.lane.kind.parts();
    for (input, places) in calls {
        assert!(input <= 10 * parts && places <= 3 * parts, "{text}");
    }
    assert!(text.contains("# mu: ours"), "{text}");
}

/// Writes a place in a call that is refused for uneven buffers.
fn refused_call(_: &Op, slate: &mut Slate, _: &mut usize) {
    if slate.sheet.found("number") == Some(7) && slate.output.len() > 3 {
        slate.output[3] = 0.0;
    }
}

#[test]
fn a_place_that_a_refused_call_writes() {
    let found = shrunk(|kind| planted(kind, refused_call));
    let text = found.text();
    let [(input, places)] = calls(&found)[..] else {
        panic!("{text}")
    };
    assert_eq!((found.ops.len(), input, places), (2, 0, 4), "{text}");
    assert!(text.contains("# output, f32 3: ours 00000000"), "{text}");
}

/// Says that a set-up is refused with another number.
fn wrong_number(op: &Op, slate: &mut Slate, _: &mut usize) {
    if matches!(op, Op::SetUp(_)) && slate.sheet.found("number") == Some(4) {
        slate.sheet.change("number", |_| Value::Count(3));
    }
}

#[test]
fn a_set_up_s_number() {
    let found = shrunk(|kind| planted(kind, wrong_number));
    let text = found.text();
    assert_eq!(found.ops.len(), 1, "{text}");
    assert!(text.contains("# number: ours 3, Fallback 4"), "{text}");
    let [Op::SetUp(set_up)] = &found.ops[..] else {
        panic!("{text}")
    };
    let values = set_up.values;
    assert_eq!(values.timing.damping, 0.7, "{text}");
}

/// Has a symbol count that wraps.
fn wrapped_count(_: &Op, slate: &mut Slate, _: &mut usize) {
    slate.sheet.change("count", |value| match value {
        Value::Count(usize::MAX) => Value::Count(0),
        other => other,
    });
}

#[test]
fn a_count_that_wraps() {
    let found = shrunk(|kind| planted(kind, wrapped_count));
    let text = found.text();
    assert_eq!(found.lane.kind, Kind::Receiver, "{text}");
    assert!(found.ops.len() <= 3, "{text}");
    assert!(
        text.contains("# count: ours 0, Fallback 18446744073709551615"),
        "{text}"
    );
}

/// Converts what is too large, as if its count fitted.
fn cut_count(op: &Op, slate: &mut Slate, _: &mut usize) {
    if matches!(op, Op::Convert) {
        slate.sheet.change("narrowed", |_| Value::Count(0));
    }
}

#[test]
fn a_conversion_that_cuts_the_count() {
    let found = shrunk(|kind| planted(kind, cut_count));
    let text = found.text();
    assert_eq!(found.lane.kind, Kind::Receiver, "{text}");
    assert!(found.ops.len() <= 4, "{text}");
    assert!(text.contains("receiver convert"), "{text}");
    assert!(text.contains("# narrowed: ours 0, Fallback 100"), "{text}");
}

/// Has a wrong number for a symbol on the lower half of the imaginary axis.
fn wrong_symbol(_: &Op, slate: &mut Slate, _: &mut usize) {
    let places = slate.output.chunks_exact(2).take(produced(slate));
    let at = places.into_iter().position(|y| y[0] == 0.0 && y[1] < 0.0);
    if let Some(at) = at.filter(|at| *at < slate.symbols.len()) {
        slate.symbols[at] += 1;
    }
}

#[test]
fn a_symbol_s_number() {
    let found = shrunk(|kind| planted(kind, wrong_symbol));
    let text = found.text();
    assert_eq!((found.ops.len(), calls(&found).len()), (2, 1), "{text}");
    assert!(text.contains("# symbol number 0: ours"), "{text}");
}

/// Has the number 0 for silence.
fn silence_read(_: &Op, slate: &mut Slate, _: &mut usize) {
    let places = slate.output.chunks_exact(2).take(produced(slate));
    let at = places.into_iter().position(|y| y == [0.0, 0.0]);
    if let Some(at) = at.filter(|at| *at < slate.symbols.len()) {
        slate.symbols[at] = 0;
    }
}

#[test]
fn silence_that_has_a_number() {
    let found = shrunk(|kind| planted(kind, silence_read));
    let text = found.text();
    assert_eq!(calls(&found).len(), 1, "{text}");
    assert!(
        text.contains("# symbol number 0: ours 0, Fallback 255"),
        "{text}"
    );
}

/// Turns zeros' signs in the integrator, and NaNs' patterns in the output.
fn turned(_: &Op, slate: &mut Slate, _: &mut usize) {
    slate.sheet.change("integ", |value| match value {
        Value::Double(0.0) => Value::Double(-0.0),
        other => other,
    });
    for part in slate.output.iter_mut().filter(|part| part.is_nan()) {
        *part = f32::from_bits(part.to_bits() ^ 1);
    }
}

#[test]
fn zeros_signs_and_nans_patterns_are_counted_alone() {
    let options = options(&["--seed", "11", "--symbols", "50000"]).unwrap();
    let report = run(&options, |kind| planted(kind, turned));
    assert!(report.clean, "{}", report.text);
    for (head, place) in [("zero's sign", "integ: "), ("NaN's pattern", "output: ")] {
        let line = report.text.lines().find(|line| line.starts_with(head));
        assert!(line.unwrap().contains(place), "{}", report.text);
    }
}
