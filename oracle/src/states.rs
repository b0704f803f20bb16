//! The lines of a recorded state. README.md describes them.

use crate::bits::{Parts, bits64};
use crate::fields::{constellation_code, ted_code};
use crate::kernels::costas::CostasState;
use crate::kernels::symbol_sync::SymbolSyncState;
use crate::lines::wide;
use crate::script::{Script, pair};

/// A sample in one word, its first part in the high half.
fn word<T: Parts>(sample: T) -> u64 {
    let second = if T::COUNT == 1 { 0.0 } else { sample.part(1) };
    pair(sample.part(0), second)
}

/// Every field of a timing state: the parameters, the gains and the limit, and what a run may change;
/// and the two readings.
pub fn timing<T: Parts>(script: &mut Script, s: &SymbolSyncState<T>) {
    let (sps, bandwidth, damping) = (s.sps(), s.loop_bw(), s.damping());
    let (deviation, gain) = (s.max_deviation(), s.ted_gain());
    let detector = u64::from(ted_code(s.ted()));
    let [first, second, third] = s.hist;
    let flags = u64::from(s.mid_ready) + 2 * u64::from(s.started);
    assert_eq!(bits64(s.omega), bits64(s.sps_estimate()));
    for (letter, [x, y, z]) in [
        ('a', [bits64(sps), bits64(bandwidth), bits64(damping)]),
        ('b', [bits64(deviation), bits64(gain), detector]),
        ('k', [bits64(s.kp), bits64(s.ki), bits64(s.lim)]),
        ('s', [s.i as u64, bits64(s.mu), bits64(s.omega)]),
        ('h', [word(first), word(second), word(third)]),
        ('y', [word(s.y_prev), word(s.d_prev), word(s.mid)]),
        ('f', [bits64(s.integ), flags, bits64(s.next_strobe())]),
    ] {
        script.line(letter, x, y, z);
    }
}

/// Every field of a carrier state, and the reading of the frequency, in four lines with these letters.
/// The state is taken apart field by field, so that a field left out would not compile.
pub fn carrier(script: &mut Script, s: &CostasState, letters: [char; 4]) {
    let CostasState {
        constellation,
        loop_bw,
        damping,
        max_offset,
        kp,
        ki,
        max,
        phase,
        freq,
        level,
        locked,
    } = *s;
    let points = u64::from(constellation_code(constellation));
    let frequency = bits64(s.frequency());
    let lines = [
        [bits64(loop_bw), bits64(damping), bits64(max_offset)],
        [wide(kp), wide(ki), wide(max)],
        [u64::from(phase), wide(freq), frequency],
        [wide(level), u64::from(locked), points],
    ];
    for (letter, [x, y, z]) in letters.into_iter().zip(lines) {
        script.line(letter, x, y, z);
    }
}
