//! The commands of a tape, and the bytes that they are written as.

use crate::fields::{constellation_code, ted_code};
use crate::script::flat;
use crate::types::C32;
use crate::{carrier_runs, runs};

/// The bytes that commands begin with.
pub const CARRIER: u8 = 0x01;
pub const TIMING: u8 = 0x02;
pub const SAMPLES: u8 = 0x03;
pub const RESET: u8 = 0x04;

/// A command that is not refused before its fields are read.
#[derive(Clone, Debug)]
pub enum Command {
    Carrier(carrier_runs::Values),
    Timing(runs::Values),
    Samples(Vec<C32>),
    Reset,
}

impl Command {
    /// The command's byte, then its fields.
    pub fn bytes(&self) -> Vec<u8> {
        match self {
            Self::Carrier(v) => {
                let values = [v.bandwidth, v.damping, v.offset];
                set_up(CARRIER, constellation_code(v.points), &values)
            }
            Self::Timing(v) => {
                let values = [v.sps, v.bandwidth, v.damping, v.deviation, v.gain];
                set_up(TIMING, ted_code(v.detector), &values)
            }
            Self::Samples(samples) => {
                let count = u16::try_from(samples.len()).expect("a count of 16 bits");
                let parts = flat(samples).into_iter().flat_map(f32::to_le_bytes);
                let front = [SAMPLES].into_iter().chain(count.to_le_bytes());
                front.chain(parts).collect()
            }
            Self::Reset => vec![RESET],
        }
    }
}

fn set_up(command: u8, selector: u8, values: &[f64]) -> Vec<u8> {
    let values = values.iter().flat_map(|value| value.to_le_bytes());
    [command, selector].into_iter().chain(values).collect()
}

/// The tape of commands in a row.
pub fn tape(commands: &[Command]) -> Vec<u8> {
    commands.iter().flat_map(Command::bytes).collect()
}
