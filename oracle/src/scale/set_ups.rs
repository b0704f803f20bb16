//! Values for set-ups: inside their ranges, at the ends, and outside.

use super::lanes::{Kind, Lane};
use super::ops::SetUp;
use crate::compare::{carrier, timing};
use crate::floats::doubles::odd_double;
use crate::kernels::costas::CostasConstellation;
use crate::random::Random;
use crate::receiver_runs::receiver::Values;
use crate::{carrier_runs, runs};

/// Paces that take the place of most of the slow ones, which cost much for each symbol.
const PACES: [f64; 8] = [2.0, 2.0000000000000004, 2.5, 4.0, 4.1, 10.0, 48.0, 96.0];
/// From here on a pace is slow.
const SLOW: f64 = 1_000.0;
/// The share of the slow paces that stay.
const KEPT: f64 = 0.3;
/// The share of paces that are a whole number or a neighbour of one.
const WHOLE: f64 = 0.06;
/// The share of set-ups that send the next strobe as far off as they can.
const FAR: f64 = 0.002;

/// Values inside their ranges. Only timing's gains can be refused.
pub fn inside(random: &mut Random, lane: Lane) -> SetUp {
    let mut timing = if random.chance(FAR) {
        timing::far_values(random, lane.detector)
    } else {
        timing::values(random, lane.detector)
    };
    if timing.sps > SLOW && !random.chance(KEPT) {
        timing.sps = random.pick(&PACES);
    } else if random.chance(WHOLE) {
        // So that the fraction is narrowed to 1, or is tiny.
        let whole = (3 + random.up_to(9)) as f64;
        timing.sps = random.pick(&[whole.next_down(), whole, whole.next_up()]);
    }
    let carrier = carrier::values(random, lane.points);
    named(random, lane, Values::named(timing, carrier))
}

/// Values of which some are at the end of a range, beside it or far outside; they may be accepted.
pub fn beside(random: &mut Random, lane: Lane) -> SetUp {
    let mut set_up = inside(random, lane);
    let values = &mut set_up.values;
    if random.chance(0.3) {
        values.timing = random.pick(&runs::listed(lane.detector));
    }
    if random.chance(0.3) {
        values.carrier = random.pick(&carrier_runs::listed(lane.points));
    }
    for _ in 0..random.up_to(2) {
        let (t, c) = (&mut values.timing, &mut values.carrier);
        let timing = [
            &mut t.sps,
            &mut t.bandwidth,
            &mut t.damping,
            &mut t.deviation,
            &mut t.gain,
        ];
        let carrier = [&mut c.bandwidth, &mut c.damping, &mut c.offset];
        let mut places = Vec::new();
        if lane.kind.has_timing() {
            places.extend(timing);
        }
        if lane.kind.has_carrier() {
            places.extend(carrier);
        }
        let at = random.up_to(places.len() - 1);
        *places[at] = odd_double(random);
    }
    named(random, lane, set_up.values)
}

/// Under BPSK a receiver does not always name its constellation. Now and then a code is other than the
/// named ones.
fn named(random: &mut Random, lane: Lane, mut values: Values) -> SetUp {
    let nameless = lane.kind == Kind::Receiver && lane.points == CostasConstellation::Bpsk;
    if nameless && random.chance(0.5) {
        values = values.unnamed();
    }
    let spare = match random.up_to(15) {
        0 => random.pick(&[1, 2, 254, 255, 256, u32::MAX - 2]),
        _ => 0,
    };
    SetUp { values, spare }
}
