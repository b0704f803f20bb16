//! Frames: a tape and what it gives, for the replay of the ported one. README.md describes them.

use super::model::{Outcome, play};
use crate::play::Kernel;

/// The longest tape of a frame.
pub const LONGEST: usize = 65_536;

/// A tape and what it gives.
#[derive(Clone, Debug, PartialEq)]
pub struct Frame {
    pub tape: Vec<u8>,
    pub outcome: Outcome,
}

impl Frame {
    /// Plays the tape.
    pub fn of<K: Kernel>(kernel: &K, tape: Vec<u8>) -> Self {
        let outcome = play(kernel, &tape);
        Self { tape, outcome }
    }

    /// The frame as it is written.
    pub fn bytes(&self) -> Vec<u8> {
        let Outcome {
            output,
            number,
            stop,
        } = &self.outcome;
        assert!(self.tape.len() <= LONGEST && output.len() <= self.tape.len());
        let mut bytes = word(self.tape.len()).to_vec();
        bytes.extend(&self.tape);
        bytes.extend(number.to_le_bytes());
        bytes.extend(word(*stop));
        bytes.extend(word(output.len()));
        bytes.extend(output);
        bytes
    }
}

/// A length or a place, in 32 bits.
fn word(length: usize) -> [u8; 4] {
    let length = u32::try_from(length).expect("at most the longest tape");
    length.to_le_bytes()
}

/// The frames of a file.
#[cfg(test)]
pub fn parsed(mut file: &[u8]) -> Vec<Frame> {
    fn word(file: &mut &[u8]) -> u32 {
        let (bytes, rest) = file.split_first_chunk().unwrap();
        *file = rest;
        u32::from_le_bytes(*bytes)
    }
    fn piece(file: &mut &[u8]) -> Vec<u8> {
        let length = word(file) as usize;
        file.split_off(..length).unwrap().to_vec()
    }
    let mut frames = Vec::new();
    while !file.is_empty() {
        let tape = piece(&mut file);
        let [number, stop] = [word(&mut file), word(&mut file)];
        let outcome = Outcome {
            output: piece(&mut file),
            number,
            stop: stop as usize,
        };
        frames.push(Frame { tape, outcome });
    }
    frames
}
