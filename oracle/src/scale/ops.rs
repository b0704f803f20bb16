//! The operations of a session, as values: what is recorded, replayed and shrunk.

use std::rc::Rc;

use crate::receiver_runs::receiver::Values;

/// One operation. A loop passes over what it does not have.
#[derive(Clone, Debug)]
pub enum Op {
    /// If it is refused, the state that was there before stays.
    SetUp(SetUp),
    Reset,
    Phase(u32),
    Frequency(f64),
    /// The record with this symbol count, as a very long recording would leave it.
    Count(u64),
    /// The record converted to one whose count has 32 bits, and back; if it is too large, it stays.
    Convert,
    Run(Run),
}

/// The values of a set-up. A loop by itself takes its part of them.
#[derive(Clone, Copy, Debug)]
pub struct SetUp {
    pub values: Values,
    /// By how much the library's codes of the last detector and of the last constellation are above their
    /// own. Such a code must read as the last one (L4 of docs/SPECIFICATION.md).
    pub spare: u32,
}

/// A sample call.
#[derive(Clone, Debug)]
pub struct Run {
    pub input: Rc<Vec<f32>>,
    /// The f32 of the receiver's strobe buffer.
    pub strobes: usize,
    /// The f32 of the output.
    pub places: usize,
}

impl Run {
    pub fn new(input: Vec<f32>, strobes: usize, places: usize) -> Self {
        let input = Rc::new(input);
        Self {
            input,
            strobes,
            places,
        }
    }
}
