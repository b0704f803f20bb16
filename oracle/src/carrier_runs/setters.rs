//! The setters: frequencies inside and outside the limit, and phases with a short run after each.

use super::{CONSTELLATIONS, Recorder, Values};
use crate::floats::doubles::{near, special};
use crate::kernels::costas::{Costas, CostasConstellation};
use crate::random::Random;
use crate::types::C32;

/// Limits: zeros of both signs, a number that is flushed, the flush's edge, and ordinary ones: 0.25 is
/// an f32, 0.05 is not.
const OFFSETS: [f64; 6] = [0.0, -0.0, 1e-35, 1e-30, 0.05, 0.25];

fn values(points: CostasConstellation, offset: f64) -> Values {
    Values {
        points,
        bandwidth: 0.1,
        damping: 0.7,
        offset,
    }
}

pub fn record<K: Costas>(recorder: &mut Recorder<K>, random: &mut Random) {
    for offset in OFFSETS {
        let mut state = recorder.opened(values(CostasConstellation::Qpsk, offset));
        for frequency in frequencies(random, offset) {
            recorder.set_frequency(&mut state, frequency);
        }
    }
    for points in CONSTELLATIONS {
        let mut state = recorder.opened(values(points, 0.05));
        for phase in phases(random) {
            recorder.set_phase(&mut state, phase);
            let samples = [C32::new(1.0, 0.0), C32::new(0.5, -0.25)];
            recorder.even_run(&mut state, &samples);
        }
    }
}

/// Frequencies around a limit, around what narrows to it, around the flush's edge, and all over.
fn frequencies(random: &mut Random, offset: f64) -> Vec<f64> {
    let limit = offset as f32;
    let [exact, above] = [limit, limit.next_up()].map(f64::from);
    let flush = f64::from(1e-30f32);
    let under = f64::from(1e-30f32.next_down());
    let edges = [offset, exact, (exact + above) / 2.0, above];
    let mut list: Vec<f64> = edges.into_iter().flat_map(near).collect();
    list.extend(
        [flush, under, (flush + under) / 2.0]
            .into_iter()
            .flat_map(near),
    );
    list.extend(special());
    // NaNs with other patterns, the sign's bit among them.
    list.extend([0x7ff0_0000_0000_0001, 0xfff8_1234_5678_9abc].map(f64::from_bits));
    list.extend([0.01, -0.04, 1e-20, -1e-29, 1.0, -7.5]);
    list.extend((0..4).map(|_| random.between(-0.3, 0.3)));
    list
}

/// Quarters and eighths of a turn, the ends of table intervals, and any.
fn phases(random: &mut Random) -> Vec<u32> {
    let mut list: Vec<u32> = (0..8).map(|eighth| eighth << 29).collect();
    list.extend([1, 0x000f_ffff, 0x0010_0000, 0x3fff_ffff, 0xffff_ffff]);
    list.extend((0..5).map(|_| random.bits32()));
    list
}
