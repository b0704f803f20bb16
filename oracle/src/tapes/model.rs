//! The order tape over the original's loops: reads a tape field by field and carries out each command as
//! soon as it is read whole.

use super::commands::{CARRIER, RESET, SAMPLES, TIMING};
use super::reader::{Read, Reader};
use crate::bits::{SENTINEL, bits32};
use crate::carrier_runs::{self, CONSTELLATIONS};
use crate::error::Error;
use crate::kernels::costas::CostasState;
use crate::kernels::symbol_sync::SymbolSyncState;
use crate::play::Kernel;
use crate::receiver_runs::DETECTORS;
use crate::receiver_runs::receiver::Receiver;
use crate::types::C32;
use crate::{refusal, runs};

/// A command or selector byte that is not defined, or a count above `MOST` (E9).
pub const UNDEFINED: u32 = 9;
/// The tape ends inside a command (E10).
pub const CUT: u32 = 10;
/// Samples or a reset before both set-ups (E11).
pub const EARLY: u32 = 11;

/// The most samples of a command, and the places of its call.
pub const MOST: usize = 2_048;

/// What a tape gives.
#[derive(Clone, Debug, PartialEq)]
pub struct Outcome {
    pub output: Vec<u8>,
    /// The number that it is refused with, or 0.
    pub number: u32,
    /// The stopping place: how many bytes were read when it ended.
    pub stop: usize,
}

/// The loops that are set up.
enum Loops {
    Neither,
    Timing(SymbolSyncState<C32>),
    Carrier(CostasState),
    Both(Receiver),
}

impl Loops {
    /// With the second loop the receiver is there. A repeated set-up replaces its own loop alone.
    fn with_timing(&self, timing: SymbolSyncState<C32>) -> Self {
        match *self {
            Self::Neither | Self::Timing(_) => Self::Timing(timing),
            Self::Carrier(carrier) => Self::Both(Receiver::of(timing, carrier)),
            Self::Both(receiver) => Self::Both(receiver.with_timing(timing)),
        }
    }

    fn with_carrier(&self, carrier: CostasState) -> Self {
        match *self {
            Self::Neither | Self::Carrier(_) => Self::Carrier(carrier),
            Self::Timing(timing) => Self::Both(Receiver::of(timing, carrier)),
            Self::Both(receiver) => Self::Both(receiver.with_carrier(carrier)),
        }
    }

    /// The receiver, once both loops are set up.
    fn receiver(&mut self) -> Read<&mut Receiver> {
        match self {
            Self::Both(receiver) => Ok(receiver),
            _ => Err(EARLY),
        }
    }
}

/// A tape that is being played.
struct Player<'a, K> {
    kernel: &'a K,
    tape: Reader<'a>,
    loops: Loops,
    output: Vec<u8>,
}

/// Plays a whole tape, or up to what is refused.
pub fn play<K: Kernel>(kernel: &K, tape: &[u8]) -> Outcome {
    let mut player = Player {
        kernel,
        tape: Reader::new(tape),
        loops: Loops::Neither,
        output: Vec::new(),
    };
    let mut number = 0;
    while number == 0 && !player.tape.at_end() {
        number = player.command().err().unwrap_or(0);
    }
    Outcome {
        output: player.output,
        number,
        stop: player.tape.place(),
    }
}

impl<K: Kernel> Player<'_, K> {
    fn command(&mut self) -> Read<()> {
        match self.tape.byte()? {
            CARRIER => self.carrier(),
            TIMING => self.timing(),
            SAMPLES => self.samples(),
            RESET => self.reset(),
            _ => Err(UNDEFINED),
        }
    }

    fn carrier(&mut self) -> Read<()> {
        let values = carrier_runs::Values {
            points: named(self.tape.byte()?, &CONSTELLATIONS)?,
            bandwidth: self.tape.double()?,
            damping: self.tape.double()?,
            offset: self.tape.double()?,
        };
        let carrier = accepted(values.set_up())?;
        self.loops = self.loops.with_carrier(carrier);
        Ok(())
    }

    fn timing(&mut self) -> Read<()> {
        let values = runs::Values {
            detector: named(self.tape.byte()?, &DETECTORS)?,
            sps: self.tape.double()?,
            bandwidth: self.tape.double()?,
            damping: self.tape.double()?,
            deviation: self.tape.double()?,
            gain: self.tape.double()?,
        };
        let timing = accepted(values.set_up())?;
        self.loops = self.loops.with_timing(timing);
        Ok(())
    }

    /// One call of the receiver. Its output has a place left at the end, so that it takes all samples (A10).
    fn samples(&mut self) -> Read<()> {
        let count = usize::from(self.tape.count()?);
        if count > MOST {
            return Err(UNDEFINED);
        }
        let receiver = self.loops.receiver()?;
        let mut input = Vec::new();
        for _ in 0..2 * count {
            input.push(self.tape.single()?);
        }
        let mut strobes = [SENTINEL; 2 * MOST];
        let mut output = [SENTINEL; 2 * MOST];
        let answer = receiver.run(self.kernel, &input, &mut strobes, &mut output);
        assert_eq!((answer.number, answer.consumed), (0, count));
        for part in &output[..2 * answer.produced] {
            self.output.extend(bits32(*part).to_le_bytes());
        }
        Ok(())
    }

    fn reset(&mut self) -> Read<()> {
        self.loops.receiver()?.reset();
        Ok(())
    }
}

/// What a selector byte stands for.
fn named<T: Copy>(selector: u8, list: &[T]) -> Read<T> {
    list.get(usize::from(selector)).copied().ok_or(UNDEFINED)
}

/// The loop, or the number of the check that refuses its values. Any other error stops the program (A11).
fn accepted<S>(made: Result<S, Error>) -> Read<S> {
    made.map_err(|error| {
        refusal::number(&error)
            .expect("an error that has a number")
            .into()
    })
}
