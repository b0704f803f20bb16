//! Set-ups: each value over its range and beyond, two wrong values at a time and all three, and
//! values all over their ranges for the gains.

use super::{CONSTELLATIONS, Recorder, Values};
use crate::floats::doubles::{near, special};
use crate::kernels::costas::{Costas, CostasConstellation};
use crate::random::Random;

/// The ends of the ranges of bandwidth, damping and offset.
const ENDS: [[f64; 2]; 3] = [[0.0001, 0.2], [0.1, 4.0], [0.0, 0.25]];

/// What is wrong with each value when several are.
const WRONG: [[f64; 3]; 2] = [[0.3, 5.0, 0.26], [f64::NAN, f64::INFINITY, -1.0]];

/// Bandwidths and dampings of which a gain lies within one last place of the middle between two f32,
/// so that the order of the f64 operations decides how it is narrowed.
pub const MIDDLES: [[u64; 2]; 9] = [
    [0x3fb9_63c5_7159_2d34, 0x3ff6_e51d_b2b1_e4e5],
    [0x3fa1_c044_8ef2_6892, 0x400f_1302_4c1c_eab7],
    [0x3fa2_6747_5bbe_ca5b, 0x4003_8315_634e_7b1a],
    [0x3fb1_7aff_e9e7_f2b7, 0x4003_98dc_f964_ebc4],
    [0x3fb1_e776_462f_7571, 0x3fe3_e719_cbe8_aa67],
    [0x3fac_be4a_71cc_2b73, 0x3ffd_a2b7_93ec_57f7],
    [0x3fab_6825_099e_9276, 0x400b_4ebb_74c7_7463],
    [0x3fbb_2709_8d4f_5b54, 0x4000_eab2_171c_2bea],
    [0x3f8c_da2b_eafb_642e, 0x4002_9c8e_04da_dd9d],
];

/// The values with one of the three numbers changed.
fn with(mut values: Values, place: usize, x: f64) -> Values {
    let at = match place {
        0 => &mut values.bandwidth,
        1 => &mut values.damping,
        _ => &mut values.offset,
    };
    *at = x;
    values
}

pub fn record<K: Costas>(recorder: &mut Recorder<K>, points: CostasConstellation) {
    for values in listed(points) {
        recorder.set_up(values);
    }
}

/// Values inside their ranges.
pub fn ordinary(points: CostasConstellation) -> Values {
    Values {
        points,
        bandwidth: 0.02,
        damping: 0.7,
        offset: 0.05,
    }
}

/// All set-ups with a constellation, in order.
pub fn listed(points: CostasConstellation) -> Vec<Values> {
    let plain = ordinary(points);
    let mut list = Vec::new();
    for (place, ends) in ENDS.into_iter().enumerate() {
        let all = ends.into_iter().flat_map(near).chain(special());
        list.extend(all.map(|x| with(plain, place, x)));
    }
    for [bandwidth, damping, offset] in WRONG {
        let wide = with(plain, 0, bandwidth);
        let stiff = with(plain, 1, damping);
        let both = with(wide, 1, damping);
        list.push(both);
        list.push(with(wide, 2, offset));
        list.push(with(stiff, 2, offset));
        list.push(with(both, 2, offset));
    }
    list
}

/// Gains: the middles, then random values, each range's ends among them.
pub fn gains<K: Costas>(recorder: &mut Recorder<K>, random: &mut Random) {
    for [bandwidth, damping] in MIDDLES.map(|pair| pair.map(f64::from_bits)) {
        recorder.opened(Values {
            points: CostasConstellation::Bpsk,
            bandwidth,
            damping,
            offset: 0.05,
        });
    }
    let [[narrow, wide], [slack, stiff], [_, far]] = ENDS;
    for _ in 0..200 {
        let bandwidth = [narrow, wide, random.scaled(narrow, wide)];
        let damping = [slack, stiff, random.between(slack, stiff)];
        let offset = [far, random.between(0.0, far), random.scaled(1e-45, 1e-28)];
        let values = Values {
            points: random.pick(&CONSTELLATIONS),
            bandwidth: random.pick(&bandwidth),
            damping: random.pick(&damping),
            offset: random.pick(&offset),
        };
        recorder.opened(values);
    }
}
