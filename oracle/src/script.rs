//! Recorded calls: lines that are played in order on one state, and what they are made of.
//! README.md describes them.

use crate::bits::{Parts, SENTINEL, bits32};
use crate::error::Error;
use crate::refusal;

/// Two halves in one word.
pub fn halves(low: usize, high: usize) -> u64 {
    low as u64 + ((high as u64) << 32)
}

/// Two f32 in one word, the first in the high half.
pub fn pair(first: f32, second: f32) -> u64 {
    (u64::from(bits32(first)) << 32) + u64::from(bits32(second))
}

/// The parts of samples in a row.
pub fn flat<T: Parts>(samples: &[T]) -> Vec<f32> {
    samples.iter().flat_map(|sample| sample.parts()).collect()
}

/// The number of what a call of the original gave: 0 if it was done, else that of the refusal (E1 to E7 of
/// docs/SPECIFICATION.md).
pub fn number<A>(given: &Result<A, Error>) -> u64 {
    match given {
        Ok(_) => 0,
        Err(error) => u64::from(refusal::number(error).expect("an error that has a number")),
    }
}

/// The lines that both implementations give.
pub fn agreed(first: String, second: &str) -> String {
    for (line, other) in first.lines().zip(second.lines()) {
        assert_eq!(line, other, "the implementations differ");
    }
    assert_eq!(first.len(), second.len());
    first
}

/// The lines so far.
#[derive(Default)]
pub struct Script {
    text: String,
}

impl Script {
    pub fn line(&mut self, letter: char, x: u64, y: u64, z: u64) {
        self.text += &format!("{letter} {x:016x} {y:016x} {z:016x}\n");
    }

    /// The input of the next run.
    pub fn input(&mut self, floats: &[f32]) {
        self.floats('i', floats);
    }

    /// The output of the last run, and the filling behind it.
    pub fn output(&mut self, floats: &[f32]) {
        self.lent('o', floats);
    }

    /// The strobe buffer of the last run, and the filling behind it.
    pub fn strobes(&mut self, floats: &[f32]) {
        self.lent('t', floats);
    }

    /// What a lent buffer holds, and the filling behind it.
    fn lent(&mut self, letter: char, floats: &[f32]) {
        let mut all = floats.to_vec();
        all.push(SENTINEL);
        self.floats(letter, &all);
    }

    /// Six f32 a line, with the filling behind the last.
    fn floats(&mut self, letter: char, floats: &[f32]) {
        for six in floats.chunks(6) {
            let at = |place: usize| six.get(place).copied().unwrap_or(SENTINEL);
            let two = |place: usize| pair(at(place), at(place + 1));
            self.line(letter, two(0), two(2), two(4));
        }
    }

    /// All lines as one text.
    pub fn into_text(self) -> String {
        self.text
    }
}
