//! What the loops are set up with. Each range includes its ends. Labels are those of docs/SPECIFICATION.md.

use crate::detector::Detector;
use crate::ffi;

/// What a timing loop is set up with (T2). Each range includes its ends (A3).
#[derive(Clone, Copy, Debug, PartialEq)]
pub struct TimingValues {
    /// Samples per symbol (pace), 2 to 1,000,000.
    pub sps: f64,
    /// The timing error detector.
    pub ted: Detector,
    /// Loop bandwidth (width) as a fraction of the symbol rate, 0.0001 to 0.1.
    pub loop_bw: f64,
    /// Damping, 0.1 to 4; 1/√2 is usual.
    pub damping: f64,
    /// Maximum deviation (pull) of the tracked samples per symbol from `sps`, as a fraction of `sps`, 0 to
    /// 0.05.
    pub max_deviation: f64,
    /// Detector gain (slope), above 0: the detector's output divided by how early the strobe is, in symbols,
    /// for small offsets. It grows with the square of the level (Gardner) or with the level
    /// (Mueller-Müller). docs/THEORY.md has a table.
    pub ted_gain: f64,
}

impl TimingValues {
    pub(crate) fn raw(self) -> ffi::TimingValues {
        ffi::TimingValues {
            sps: self.sps,
            ted: self.ted.code(),
            loop_bw: self.loop_bw,
            damping: self.damping,
            max_deviation: self.max_deviation,
            ted_gain: self.ted_gain,
        }
    }

    pub(crate) fn from_raw(raw: ffi::TimingValues) -> Self {
        TimingValues {
            sps: raw.sps,
            ted: Detector::from_code(raw.ted),
            loop_bw: raw.loop_bw,
            damping: raw.damping,
            max_deviation: raw.max_deviation,
            ted_gain: raw.ted_gain,
        }
    }
}

/// What a carrier loop is set up with beside its constellation (C2). Each range includes its ends (A3).
#[derive(Clone, Copy, Debug, PartialEq)]
pub struct CarrierValues {
    /// Loop bandwidth (width) as a fraction of the symbol rate, 0.0001 to 0.2. It is that of symbols of
    /// magnitude 1 under BPSK and 8-PSK and 0.707 under QPSK: the level acts as a gain (docs/THEORY.md).
    pub loop_bw: f64,
    /// Damping, 0.1 to 4; 1/√2 is usual.
    pub damping: f64,
    /// Maximum frequency offset (pull), in cycles per symbol, 0 to 0.25.
    pub max_offset: f64,
}

impl CarrierValues {
    pub(crate) fn raw(self) -> ffi::CarrierValues {
        ffi::CarrierValues {
            loop_bw: self.loop_bw,
            damping: self.damping,
            max_offset: self.max_offset,
        }
    }

    pub(crate) fn from_raw(raw: ffi::CarrierValues) -> Self {
        CarrierValues {
            loop_bw: raw.loop_bw,
            damping: raw.damping,
            max_offset: raw.max_offset,
        }
    }
}
