//! Order tapes and what they give over the original's loops, for the replay of the ported one: the recorded
//! frames, and random ones for a comparison at scale. README.md describes both.

mod cases;
mod commands;
mod damage;
mod frames;
mod maker;
mod model;
mod odd;
mod orders;
mod reader;
mod recorded;
mod set_ups;
mod stream;
mod usual;

use std::io::{self, Write};

use crate::compare::SEED;
use crate::play::Kernel;
use crate::{Fallback, Reference};
use frames::Frame;
use stream::Stream;

/// What is asked for.
#[derive(Debug, PartialEq)]
pub struct Options {
    /// Whether `Reference` plays the tapes.
    reference: bool,
    seed: u64,
    /// So many random tapes; if none, the recorded ones.
    tapes: Option<usize>,
}

impl Options {
    /// `--reference`, and `--tapes` and `--seed` with a number each, in any order; none if they cannot be read.
    pub fn read(words: &[&str]) -> Option<Self> {
        let mut words = words.iter();
        let (mut reference, mut seed, mut tapes) = (false, None, None);
        while let Some(word) = words.next() {
            match *word {
                "--reference" => reference = true,
                "--seed" => seed = Some(words.next()?.parse().ok()?),
                "--tapes" => tapes = Some(words.next()?.parse().ok()?),
                _ => return None,
            }
        }
        if tapes.is_none() && seed.is_some() {
            return None;
        }
        let seed = seed.unwrap_or(SEED);
        Some(Self {
            reference,
            seed,
            tapes,
        })
    }

    /// Writes the frames.
    pub fn write(&self, to: &mut impl Write) -> io::Result<()> {
        if self.reference {
            self.write_by(&Reference, to)
        } else {
            self.write_by(&Fallback, to)
        }
    }

    fn write_by<K: Kernel>(&self, kernel: &K, to: &mut impl Write) -> io::Result<()> {
        let Some(count) = self.tapes else {
            return to.write_all(&recorded_by(kernel));
        };
        for tape in Stream::new(self.seed).take(count) {
            to.write_all(&Frame::of(kernel, tape).bytes())?;
        }
        Ok(())
    }
}

/// The recorded frames. Both implementations must give the same.
pub fn recorded() -> Vec<u8> {
    let frames = recorded_by(&Fallback);
    assert!(
        frames == recorded_by(&Reference),
        "the implementations differ"
    );
    frames
}

fn recorded_by<K: Kernel>(kernel: &K) -> Vec<u8> {
    let tapes = recorded::tapes().into_iter();
    tapes
        .flat_map(|tape| Frame::of(kernel, tape).bytes())
        .collect()
}

#[cfg(test)]
mod tests;
