//! What one side shows after an operation.

use crate::bits::SENTINEL;
use crate::fields::{Fields, Value};

/// Values with their names, in order.
#[derive(Default)]
pub struct Sheet {
    values: Vec<(&'static str, Value)>,
}

impl Sheet {
    pub fn put(&mut self, name: &'static str, value: Value) {
        self.values.push((name, value));
    }

    pub fn count(&mut self, name: &'static str, count: usize) {
        self.put(name, Value::Count(count));
    }

    /// Every field of a state.
    pub fn state(&mut self, state: &impl Fields) {
        state.each(&mut |name, value| self.put(name, value));
    }

    /// What is put in, with each value made zero.
    pub fn zeros(&mut self, put: impl FnOnce(&mut Self)) {
        let start = self.values.len();
        put(self);
        for (_, value) in &mut self.values[start..] {
            *value = zero(*value);
        }
    }

    pub fn values(&self) -> &[(&'static str, Value)] {
        &self.values
    }

    /// The first value of this name.
    fn find(&self, name: &str) -> Option<Value> {
        let mut named = self.values.iter().filter(|(other, _)| *other == name);
        named.next().map(|(_, value)| *value)
    }

    /// A count of this name.
    pub fn found(&self, name: &str) -> Option<usize> {
        match self.find(name)? {
            Value::Count(count) => Some(count),
            _ => None,
        }
    }

    /// A code or a truth value of this name.
    pub fn code(&self, name: &str) -> Option<u8> {
        match self.find(name)? {
            Value::Code(code) => Some(code),
            _ => None,
        }
    }

    /// A number of this name.
    pub fn float(&self, name: &str) -> Option<f64> {
        match self.find(name)? {
            Value::Single(x) => Some(f64::from(x)),
            Value::Double(x) => Some(x),
            _ => None,
        }
    }
}

/// Puts another value in the place of each of this name, as a wrong library would.
#[cfg(test)]
impl Sheet {
    pub fn change(&mut self, name: &str, other: impl Fn(Value) -> Value) {
        for (_, value) in self.values.iter_mut().filter(|(n, _)| *n == name) {
            *value = other(*value);
        }
    }
}

/// Zero, of the same sort.
fn zero(value: Value) -> Value {
    match value {
        Value::Single(_) => Value::Single(0.0),
        Value::Double(_) => Value::Double(0.0),
        Value::Count(_) => Value::Count(0),
        Value::Phase(_) => Value::Phase(0),
        Value::Code(_) => Value::Code(0),
    }
}

/// The sheet, the lent buffers with every place, and symbol numbers.
#[derive(Default)]
pub struct Slate {
    pub sheet: Sheet,
    pub strobes: Vec<f32>,
    pub output: Vec<f32>,
    /// Of the samples produced, and of a short input.
    pub symbols: Vec<u64>,
}

impl Slate {
    /// Wipes it and lends buffers of so many f32, filled.
    pub fn lend(&mut self, strobes: usize, places: usize) {
        self.sheet.values.clear();
        self.symbols.clear();
        for (buffer, count) in [(&mut self.strobes, strobes), (&mut self.output, places)] {
            buffer.clear();
            buffer.resize(count, SENTINEL);
        }
    }
}
