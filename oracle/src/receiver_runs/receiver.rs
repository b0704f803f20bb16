//! The receiver, which the original has not: part R of docs/SPECIFICATION.md over the original's loops.

use crate::bits::{Parts, fresh_output};
use crate::error::Error;
use crate::kernels::costas::{C8, CostasConstellation, CostasState, S8, octant_point};
use crate::kernels::symbol_sync::SymbolSyncState;
use crate::play::Kernel;
use crate::script::flat;
use crate::timing::Progress;
use crate::types::C32;
use crate::{carrier_runs, runs};

/// The values of a set-up.
#[derive(Clone, Copy, Debug)]
pub struct Values {
    pub timing: runs::Values,
    pub carrier: carrier_runs::Values,
    /// Whether the constellation is named. If it is not, it is the original's default (R3).
    pub named: bool,
}

impl Values {
    /// A set-up that names its constellation.
    pub fn named(timing: runs::Values, carrier: carrier_runs::Values) -> Self {
        let named = true;
        Self {
            timing,
            carrier,
            named,
        }
    }

    /// The same set-up without a constellation.
    pub fn unnamed(mut self) -> Self {
        self.carrier.points = CostasConstellation::default();
        self.named = false;
        self
    }
}

/// The record: both loops and the symbol count (R2, R18).
#[derive(Clone, Copy, Debug)]
pub struct Receiver {
    pub timing: SymbolSyncState<C32>,
    pub carrier: CostasState,
    pub count: u64,
}

/// The record as it was before, whose count had 32 bits (R19).
#[derive(Clone, Copy, Debug)]
pub struct Receiver32 {
    pub timing: SymbolSyncState<C32>,
    pub carrier: CostasState,
    pub count: u32,
}

/// What stands in a line or an answer for a record that is too large (L13).
pub const TOO_LARGE: u64 = 100;

/// What a sample call answers. The number is 0 if it is not refused.
#[derive(Clone, Copy, Debug, PartialEq)]
pub struct Answer {
    pub number: u64,
    pub consumed: usize,
    pub produced: usize,
}

impl Receiver {
    /// A set-up: all of timing's values are checked before the carrier's (R4).
    pub fn new(values: Values) -> Result<Self, Error> {
        let timing = values.timing.set_up()?;
        let carrier = values.carrier.set_up()?;
        Ok(Self::of(timing, carrier))
    }

    /// The receiver of two loops that were set up one by one, as an order tape does. There is no symbol yet.
    pub fn of(timing: SymbolSyncState<C32>, carrier: CostasState) -> Self {
        let count = 0;
        Self {
            timing,
            carrier,
            count,
        }
    }

    /// The same with another timing loop. The carrier and the count stay.
    pub fn with_timing(self, timing: SymbolSyncState<C32>) -> Self {
        Self { timing, ..self }
    }

    /// The same with another carrier. The timing loop and the count stay.
    pub fn with_carrier(self, carrier: CostasState) -> Self {
        Self { carrier, ..self }
    }

    /// Both loops are fresh again, and the count is 0 (R7).
    pub fn reset(&mut self) {
        self.timing.reset();
        self.carrier.reset();
        self.count = 0;
    }

    /// A sample call, in which neither loop of the original fails.
    pub fn run<K: Kernel>(
        &mut self,
        kernel: &K,
        input: &[f32],
        strobes: &mut [f32],
        output: &mut [f32],
    ) -> Answer {
        let ran = self.try_run(kernel, input, strobes, output);
        ran.expect("no complex run is refused, and the counts are equal")
    }

    /// A sample call: timing writes its strobes to the strobe buffer, and the carrier makes the output of
    /// them (R1). Odd counts are refused before unequal lengths (R10); a refused call changes nothing (A7).
    pub fn try_run<K: Kernel>(
        &mut self,
        kernel: &K,
        input: &[f32],
        strobes: &mut [f32],
        output: &mut [f32],
    ) -> Result<Answer, Error> {
        let lengths = [input.len(), strobes.len(), output.len()];
        if lengths.iter().any(|length| length % 2 == 1) {
            return Ok(refused(8));
        }
        if strobes.len() != output.len() {
            return Ok(refused(7));
        }
        let mut found: Vec<C32> = samples(strobes);
        let Progress { consumed, produced } =
            kernel.symbol_sync(&mut self.timing, &samples(input), &mut found)?;
        strobes.copy_from_slice(&flat(&found));
        let mut carried: Vec<C32> = fresh_output(produced);
        kernel.costas(&mut self.carrier, &found[..produced], &mut carried)?;
        output[..2 * produced].copy_from_slice(&flat(&carried));
        self.count = self.count.saturating_add(produced as u64);
        Ok(Answer {
            number: 0,
            consumed,
            produced,
        })
    }
}

/// The conversions, up (R20) and down (R21).
impl Receiver32 {
    pub fn widened(self) -> Receiver {
        Receiver {
            timing: self.timing,
            carrier: self.carrier,
            count: self.count.into(),
        }
    }
}

impl Receiver {
    /// None if it is too large.
    pub fn narrowed(self) -> Option<Receiver32> {
        let count = u32::try_from(self.count).ok()?;
        Some(Receiver32 {
            timing: self.timing,
            carrier: self.carrier,
            count,
        })
    }
}

/// The answer of a call that is refused.
pub fn refused(number: u64) -> Answer {
    Answer {
        number,
        consumed: 0,
        produced: 0,
    }
}

/// The samples of a buffer of parts.
pub fn samples(floats: &[f32]) -> Vec<C32> {
    let pairs = floats.chunks_exact(C32::COUNT);
    pairs.map(|two| C32::new(two[0], two[1])).collect()
}

/// The eight points in the order of their octants.
const POINTS: [(f32, f32); 8] = [
    (C8, S8),
    (S8, C8),
    (-S8, C8),
    (-C8, S8),
    (-C8, -S8),
    (-S8, -C8),
    (S8, -C8),
    (C8, -S8),
];

/// The octant (C14), by the point that the original gives for it. (The original's function that gives the
/// octant itself is kept to its file.)
pub fn octant(y: C32) -> u64 {
    let place = POINTS.iter().position(|point| *point == octant_point(y));
    place.expect("one of the eight points") as u64
}

/// What stands in a line or an answer for a symbol that reads none (L11).
pub const NO_SYMBOL: u64 = 255;

/// The number of a symbol (R11 to R13). None for silence, and where a part is not a number (R16).
pub fn symbol_number(points: CostasConstellation, y: C32) -> Option<u64> {
    let silent = y.re.abs() <= 0.0 && y.im.abs() <= 0.0;
    if silent || y.re.is_nan() || y.im.is_nan() {
        return None;
    }
    Some(match points {
        CostasConstellation::Bpsk => u64::from(y.re < 0.0 || (y.re == 0.0 && y.im < 0.0)),
        CostasConstellation::Qpsk => octant(y) / 2,
        _ => octant(y),
    })
}

/// The number, or the code for none (L11).
pub fn symbol_code(points: CostasConstellation, y: C32) -> u64 {
    symbol_number(points, y).unwrap_or(NO_SYMBOL)
}
