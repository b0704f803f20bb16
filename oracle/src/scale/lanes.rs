//! What is compared: the kinds of loops, with each detector and constellation.

use crate::carrier_runs::CONSTELLATIONS;
use crate::kernels::costas::CostasConstellation;
use crate::kernels::symbol_sync::Ted;

/// A kind of loop.
#[derive(Clone, Copy, Debug, PartialEq, Eq)]
pub enum Kind {
    Real,
    Complex,
    Carrier,
    Receiver,
}

/// The kinds take turns.
pub const KINDS: [Kind; 4] = [Kind::Real, Kind::Complex, Kind::Carrier, Kind::Receiver];

const DETECTORS: [Ted; 2] = [Ted::Gardner, Ted::MuellerMuller];

impl Kind {
    /// As in scripts.
    pub fn name(self) -> &'static str {
        match self {
            Kind::Real => "real",
            Kind::Complex => "complex",
            Kind::Carrier => "carrier",
            Kind::Receiver => "receiver",
        }
    }

    /// The f32 of a sample.
    pub fn parts(self) -> usize {
        if self == Kind::Real { 1 } else { 2 }
    }

    pub fn has_timing(self) -> bool {
        self != Kind::Carrier
    }

    pub fn has_carrier(self) -> bool {
        matches!(self, Kind::Carrier | Kind::Receiver)
    }
}

/// A kind with a detector and a constellation; a loop by itself has one of the two.
#[derive(Clone, Copy, Debug)]
pub struct Lane {
    pub kind: Kind,
    pub detector: Ted,
    pub points: CostasConstellation,
    /// The row of the table.
    pub row: usize,
}

impl Lane {
    /// All of them, row by row.
    pub fn all() -> Vec<Self> {
        let mut lanes = Vec::new();
        for kind in KINDS {
            let points = &CONSTELLATIONS[..if kind.has_carrier() { 3 } else { 1 }];
            let detectors = &DETECTORS[..if kind.has_timing() { 2 } else { 1 }];
            for &points in points {
                for &detector in detectors {
                    let row = lanes.len();
                    lanes.push(Self {
                        kind,
                        detector,
                        points,
                        row,
                    });
                }
            }
        }
        lanes
    }

    /// The lane of a session: the kinds take turns, and each kind's lanes do.
    pub fn of(index: u64) -> Self {
        let count = KINDS.len() as u64;
        let kind = KINDS[(index % count) as usize];
        let mut lanes = Self::all();
        lanes.retain(|lane| lane.kind == kind);
        lanes[(index / count % lanes.len() as u64) as usize]
    }

    pub fn name(self) -> String {
        let mut name = self.kind.name().to_string();
        if self.kind.has_timing() {
            name += &format!(" {:?}", self.detector);
        }
        if self.kind.has_carrier() {
            name += &format!(" {:?}", self.points);
        }
        name
    }
}
