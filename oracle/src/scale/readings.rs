//! What a state tells of itself: the original's answers in the library's records, and both on a sheet.

use train_receiver::ffi;

use super::records::{constellation, detector};
use super::sheet::Sheet;
use crate::bits::Parts;
use crate::fields::Value;
use crate::kernels::costas::CostasState;
use crate::kernels::symbol_sync::SymbolSyncState;

/// What the original tells of a timing state.
pub fn of_timing<T: Parts>(state: &SymbolSyncState<T>) -> ffi::TimingReadings {
    ffi::TimingReadings {
        values: ffi::TimingValues {
            sps: state.sps(),
            ted: detector(state.ted(), 0),
            loop_bw: state.loop_bw(),
            damping: state.damping(),
            max_deviation: state.max_deviation(),
            ted_gain: state.ted_gain(),
        },
        next_strobe: state.next_strobe(),
        sps_estimate: state.sps_estimate(),
    }
}

/// What the original tells of a carrier state.
pub fn of_carrier(state: &CostasState) -> ffi::CarrierReadings {
    ffi::CarrierReadings {
        constellation: constellation(state.constellation(), 0),
        values: ffi::CarrierValues {
            loop_bw: state.loop_bw(),
            damping: state.damping(),
            max_offset: state.max_offset(),
        },
        frequency: state.frequency(),
        phase: state.phase(),
        lock_level: state.lock_level(),
        locked: state.locked(),
    }
}

pub fn put_timing(readings: &ffi::TimingReadings, sheet: &mut Sheet) {
    let ffi::TimingReadings {
        values,
        next_strobe,
        sps_estimate,
    } = *readings;
    sheet.put("read sps", Value::Double(values.sps));
    sheet.count("read detector", values.ted as usize);
    sheet.put("read loop_bw", Value::Double(values.loop_bw));
    sheet.put("read damping", Value::Double(values.damping));
    sheet.put("read max_deviation", Value::Double(values.max_deviation));
    sheet.put("read ted_gain", Value::Double(values.ted_gain));
    sheet.put("next_strobe", Value::Double(next_strobe));
    sheet.put("sps_estimate", Value::Double(sps_estimate));
}

pub fn put_carrier(readings: &ffi::CarrierReadings, sheet: &mut Sheet) {
    let ffi::CarrierReadings {
        constellation,
        values,
        frequency,
        phase,
        lock_level,
        locked,
    } = *readings;
    sheet.count("read constellation", constellation as usize);
    sheet.put("read loop_bw", Value::Double(values.loop_bw));
    sheet.put("read damping", Value::Double(values.damping));
    sheet.put("read max_offset", Value::Double(values.max_offset));
    sheet.put("read frequency", Value::Double(frequency));
    sheet.put("read phase", Value::Phase(phase));
    sheet.put("lock_level", Value::Single(lock_level));
    sheet.put("read locked", Value::Code(u8::from(locked)));
}
