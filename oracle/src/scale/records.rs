//! The library's records as the original's states, so that both are read by the same text, and the
//! original's values as the library's.

use train_receiver::ffi;

use crate::bits::Parts;
use crate::fields::{constellation_code, ted_code};
use crate::kernels::costas::{CostasConstellation, CostasState};
use crate::kernels::symbol_sync::{SymbolSyncState, Ted};
use crate::types::C32;
use crate::{carrier_runs, runs};

/// The code of a detector. The spare is put on that of the last one.
pub fn detector(ted: Ted, spare: u32) -> u32 {
    let code = u32::from(ted_code(ted));
    if code == 1 { code + spare } else { code }
}

/// The code of a constellation. The spare is put on that of the last one.
pub fn constellation(points: CostasConstellation, spare: u32) -> u32 {
    let code = u32::from(constellation_code(points));
    if code == 2 { code + spare } else { code }
}

pub fn timing_values(values: &runs::Values, spare: u32) -> ffi::TimingValues {
    ffi::TimingValues {
        sps: values.sps,
        ted: detector(values.detector, spare),
        loop_bw: values.bandwidth,
        damping: values.damping,
        max_deviation: values.deviation,
        ted_gain: values.gain,
    }
}

pub fn carrier_values(values: &carrier_runs::Values) -> ffi::CarrierValues {
    ffi::CarrierValues {
        loop_bw: values.bandwidth,
        damping: values.damping,
        max_offset: values.offset,
    }
}

/// A sample of the library.
pub trait Theirs: Copy {
    /// The original's sample.
    type Sample: Parts;
    fn sample(self) -> Self::Sample;
}

impl Theirs for f32 {
    type Sample = f32;

    fn sample(self) -> f32 {
        self
    }
}

impl Theirs for ffi::C32 {
    type Sample = C32;

    fn sample(self) -> C32 {
        C32::new(self.re, self.im)
    }
}

/// The state of a timing record. Its code of the detector is looked at by itself.
pub fn timing<T: Theirs>(record: &ffi::Timing<T>) -> SymbolSyncState<T::Sample> {
    let (params, hist, track) = (&record.params, &record.hist, &record.track);
    SymbolSyncState {
        sps: params.sps,
        ted: match params.ted {
            0 => Ted::Gardner,
            _ => Ted::MuellerMuller,
        },
        loop_bw: params.loop_bw,
        damping: params.damping,
        max_deviation: params.max_deviation,
        ted_gain: params.ted_gain,
        kp: params.kp,
        ki: params.ki,
        lim: params.lim,
        hist: [hist.a, hist.b, hist.c].map(Theirs::sample),
        i: track.clock.i,
        mu: track.clock.mu,
        omega: track.clock.omega,
        integ: track.clock.integ,
        y_prev: track.y_prev.sample(),
        d_prev: track.d_prev.sample(),
        mid: track.mid.sample(),
        mid_ready: track.mid_ready,
        started: track.started,
    }
}

/// The state of a carrier record. Its code of the constellation is looked at by itself.
pub fn carrier(record: &ffi::Carrier) -> CostasState {
    let (params, track) = (&record.params, &record.track);
    CostasState {
        constellation: match record.constellation {
            0 => CostasConstellation::Bpsk,
            1 => CostasConstellation::Qpsk,
            _ => CostasConstellation::Psk8,
        },
        loop_bw: params.loop_bw,
        damping: params.damping,
        max_offset: params.max_offset,
        kp: params.kp,
        ki: params.ki,
        max: params.max,
        phase: track.nco.phase,
        freq: track.nco.freq,
        level: track.lock.level,
        locked: track.lock.locked,
    }
}
