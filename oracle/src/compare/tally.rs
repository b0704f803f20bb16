//! Counts of one kind of session, and how two values are compared.

use crate::bits::{Parts, SENTINEL};
use crate::fields::{Fields, Value};

/// How two values stand to each other.
#[derive(Clone, Copy, Debug, PartialEq, Eq)]
pub enum Likeness {
    Same,
    /// Two zeros of different signs.
    ZeroSign,
    /// Two NaN of different patterns.
    NanPattern,
    Different,
}

/// Of two floats, widened if they are single: widening keeps the number, and a NaN a NaN.
fn floats(same_bits: bool, a: f64, b: f64) -> Likeness {
    if same_bits {
        Likeness::Same
    } else if a.is_nan() && b.is_nan() {
        Likeness::NanPattern
    } else if a == b {
        Likeness::ZeroSign
    } else {
        Likeness::Different
    }
}

pub fn likeness(a: Value, b: Value) -> Likeness {
    let same = match (a, b) {
        (Value::Single(a), Value::Single(b)) => {
            return floats(a.to_bits() == b.to_bits(), f64::from(a), f64::from(b));
        }
        (Value::Double(a), Value::Double(b)) => {
            return floats(a.to_bits() == b.to_bits(), a, b);
        }
        (Value::Count(a), Value::Count(b)) => a == b,
        (Value::Phase(a), Value::Phase(b)) => a == b,
        (Value::Code(a), Value::Code(b)) => a == b,
        _ => false,
    };
    if same {
        Likeness::Same
    } else {
        Likeness::Different
    }
}

/// The counts.
#[derive(Clone, Default)]
pub struct Tally {
    name: &'static str,
    pub sessions: u64,
    pub symbols: u64,
    pub calls: u64,
    pub refused_set_ups: u64,
    pub refused_runs: u64,
    pub not_finite_samples: u64,
    pub values: u64,
    pub differences: u64,
    pub zero_sign: u64,
    pub nan_pattern: u64,
    /// Errors that cannot occur (A11).
    pub internal: u64,
    /// Statements of docs/SPECIFICATION.md that did not hold (A10, T22, T23, C22).
    pub broken: u64,
    pub largest_position: usize,
    pub largest_level: f32,
    /// The first thing that went wrong.
    first: Option<String>,
}

impl Tally {
    pub fn new(name: &'static str) -> Self {
        Self {
            name,
            ..Self::default()
        }
    }

    /// The sum of several tallies.
    pub fn sum(name: &'static str, parts: &[Tally]) -> Self {
        let mut sum = Self::new(name);
        for part in parts {
            sum.sessions += part.sessions;
            sum.symbols += part.symbols;
            sum.calls += part.calls;
            sum.refused_set_ups += part.refused_set_ups;
            sum.refused_runs += part.refused_runs;
            sum.not_finite_samples += part.not_finite_samples;
            sum.values += part.values;
            sum.differences += part.differences;
            sum.zero_sign += part.zero_sign;
            sum.nan_pattern += part.nan_pattern;
            sum.internal += part.internal;
            sum.broken += part.broken;
            sum.largest_position = sum.largest_position.max(part.largest_position);
            sum.largest_level = sum.largest_level.max(part.largest_level);
        }
        sum
    }

    pub fn clean(&self) -> bool {
        self.differences == 0 && self.internal == 0 && self.broken == 0
    }

    pub fn lines(&self) -> String {
        let mut text = format!(
            "{}: symbols {} calls {} sessions {} refused-set-ups {} refused-runs {} \
             not-finite-samples {} values-compared {} differences {} zero-sign-only {} \
             nan-pattern-only {} internal {} broken-statements {}\n",
            self.name,
            self.symbols,
            self.calls,
            self.sessions,
            self.refused_set_ups,
            self.refused_runs,
            self.not_finite_samples,
            self.values,
            self.differences,
            self.zero_sign,
            self.nan_pattern,
            self.internal,
            self.broken,
        );
        if let Some(first) = &self.first {
            text += &format!("  first: {first}\n");
        }
        text
    }

    /// Notes the first thing that went wrong.
    fn note(&mut self, what: &str) {
        if self.first.is_none() {
            self.first = Some(what.to_string());
        }
    }

    fn count(&mut self, likeness: Likeness, what: &str) {
        self.values += 1;
        match likeness {
            Likeness::Same => {}
            Likeness::ZeroSign => self.zero_sign += 1,
            Likeness::NanPattern => self.nan_pattern += 1,
            Likeness::Different => {
                self.differences += 1;
                self.note(what);
            }
        }
    }

    /// A statement that must hold.
    pub fn must(&mut self, holds: bool, what: &str) {
        if !holds {
            self.broken += 1;
            self.note(what);
        }
    }

    /// Compares two answers.
    pub fn compare_answers<A: PartialEq>(&mut self, a: &A, b: &A) {
        let likeness = if a == b {
            Likeness::Same
        } else {
            Likeness::Different
        };
        self.count(likeness, "answer");
    }

    /// Compares two buffers, place by place.
    pub fn compare_buffers<T: Parts>(&mut self, a: &[T], b: &[T]) {
        for (a, b) in a.iter().zip(b) {
            for place in 0..T::COUNT {
                let (a, b) = (Value::Single(a.part(place)), Value::Single(b.part(place)));
                self.count(likeness(a, b), "output");
            }
        }
    }

    /// Compares two states, field by field.
    pub fn compare_states(&mut self, a: &impl Fields, b: &impl Fields) {
        for ((name, a), (_, b)) in a.fields().into_iter().zip(b.fields()) {
            self.compare_answers(&a.len(), &b.len());
            for (a, b) in a.into_iter().zip(b) {
                self.count(likeness(a, b), name);
            }
        }
    }

    /// Counts parts that are infinite or NaN.
    pub fn count_input<T: Parts>(&mut self, input: &[T]) {
        let parts = input.iter().flat_map(|sample| sample.parts());
        self.not_finite_samples += parts.filter(|part| !part.is_finite()).count() as u64;
    }

    /// These places must hold what they held before the run.
    pub fn must_be_unwritten<T: Parts>(&mut self, places: &[T]) {
        let before = SENTINEL.to_bits();
        let same = places
            .iter()
            .all(|place| place.parts().all(|part| part.to_bits() == before));
        self.must(same, "a place was written that should not be");
    }
}

#[cfg(test)]
mod tests {
    use super::*;

    #[test]
    fn only_a_zero_s_sign_and_a_nan_s_pattern_are_told_apart_from_differences() {
        assert_eq!(
            likeness(Value::Single(1.0), Value::Single(1.0)),
            Likeness::Same
        );
        assert_eq!(
            likeness(Value::Single(0.0), Value::Single(-0.0)),
            Likeness::ZeroSign
        );
        assert_eq!(
            likeness(Value::Single(f32::NAN), Value::Single(-f32::NAN)),
            Likeness::NanPattern
        );
        assert_eq!(
            likeness(Value::Single(f32::NAN), Value::Single(1.0)),
            Likeness::Different
        );
        assert_eq!(
            likeness(Value::Double(1.0), Value::Double(1.0f64.next_up())),
            Likeness::Different
        );
        assert_eq!(
            likeness(Value::Double(0.0), Value::Double(5e-324)),
            Likeness::Different
        );
        assert_eq!(
            likeness(Value::Count(1), Value::Count(2)),
            Likeness::Different
        );
    }
}
