//! Plainer set-ups and setters.

use super::super::ops::Op;
use super::super::original::ordinary;
use super::Shrinker;
use crate::receiver_runs::receiver::Values;

/// Copies one value from other values.
type Copied = fn(&mut Values, &Values);

const VALUES: [Copied; 8] = [
    |to, from| to.timing.sps = from.timing.sps,
    |to, from| to.timing.bandwidth = from.timing.bandwidth,
    |to, from| to.timing.damping = from.timing.damping,
    |to, from| to.timing.deviation = from.timing.deviation,
    |to, from| to.timing.gain = from.timing.gain,
    |to, from| to.carrier.bandwidth = from.carrier.bandwidth,
    |to, from| to.carrier.damping = from.carrier.damping,
    |to, from| to.carrier.offset = from.carrier.offset,
];

impl Shrinker<'_> {
    /// Tries ordinary values in a set-up, one after the other, zeros in setters, and the top of the count.
    pub fn plainer_setting(&mut self, at: usize) {
        let plainer = match self.ops[at] {
            Op::SetUp(_) => return self.plainer_set_up(at),
            Op::Phase(phase) if phase != 0 => Op::Phase(0),
            Op::Frequency(frequency) if frequency.to_bits() != 0 => Op::Frequency(0.0),
            Op::Count(count) if count != u64::MAX => Op::Count(u64::MAX),
            _ => return,
        };
        self.replace(at, plainer);
    }

    fn plainer_set_up(&mut self, at: usize) {
        for copy in VALUES {
            let Some(Op::SetUp(set_up)) = self.ops.get(at) else {
                return;
            };
            let mut plainer = *set_up;
            let values = &mut plainer.values;
            copy(
                values,
                &ordinary(values.timing.detector, values.carrier.points),
            );
            plainer.spare = 0;
            if format!("{plainer:?}") != format!("{set_up:?}") {
                self.replace(at, Op::SetUp(plainer));
            }
        }
    }
}
