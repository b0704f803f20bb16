//! The lock detector: lock that is found on a signal and lost in noise, and the cases of its two levels
//! (X18 and X19 of docs/SPECIFICATION.md).

use super::chains::near_lock;
use super::{Recorder, Values};
use crate::kernels::costas::{Costas, CostasConstellation, CostasState};
use crate::random::Random;
use crate::types::C32;

/// The longest way to an edge, in samples.
const LONGEST: usize = 2_000;
/// Far from the edge blocks are so long. Near it they are single samples.
const BLOCK: usize = 20;
/// How near that is.
const NEAR: f32 = 0.02;

/// Three times lock is found and lost again. In noise the frequency wanders, so it is set anew.
pub fn record<K: Costas>(
    recorder: &mut Recorder<K>,
    random: &mut Random,
    points: CostasConstellation,
) {
    let mut state = recorder.opened(Values {
        points,
        bandwidth: 0.02,
        damping: 0.7,
        offset: 0.05,
    });
    for _ in 0..3 {
        let mut signal = near_lock(random, points);
        recorder.set_frequency(&mut state, 0.0);
        until(recorder, &mut state, true, || signal.sample(random));
        recorder.even_run(&mut state, &signal.block(random, BLOCK));
        until(recorder, &mut state, false, || {
            C32::new(random.bell() as f32, random.bell() as f32)
        });
    }
}

/// Runs until there is lock, or none.
fn until<K: Costas>(
    recorder: &mut Recorder<K>,
    state: &mut CostasState,
    locked: bool,
    mut sample: impl FnMut() -> C32,
) {
    let edge = if locked { 0.5 } else { 0.3 };
    let mut left = LONGEST;
    while state.locked != locked {
        let far = (state.level - edge).abs() > NEAR;
        let length = if far { BLOCK } else { 1 };
        let block: Vec<C32> = (0..length).map(|_| sample()).collect();
        recorder.even_run(state, &block);
        left = left.checked_sub(length).expect("the level gets there");
    }
}

/// Samples, and the level and the lock that they end with.
pub struct Edge {
    pub samples: Vec<C32>,
    pub level: f32,
    pub locked: bool,
}

/// BPSK samples on the axes, which have no error, so that phase and frequency stay; then one that
/// brings the level to the edge exactly, or to the number on either side of it.
pub fn edges() -> Vec<Edge> {
    let one = C32::new(1.0, 0.0);
    let rise = vec![one; 68];
    let fall = [vec![one; 70], vec![C32::new(0.0, 1.0); 14]].concat();
    let below = |x: f32| x.next_down();
    let above = |x: f32| x.next_up();
    [
        (&rise, 0x3db9_9b86, below(0.5), false),
        (&rise, 0x3db9_94c9, 0.5, false),
        (&rise, 0x3db9_8c20, above(0.5), true),
        (&fall, 0x3fd0_8664, above(0.3), true),
        (&fall, 0x3fd0_8696, 0.3, true),
        (&fall, 0x3fd0_86c9, below(0.3), false),
    ]
    .map(|(before, im, level, locked)| Edge {
        samples: [&before[..], &[C32::new(1.0, f32::from_bits(im))]].concat(),
        level,
        locked,
    })
    .into()
}

/// The edges, block by block and the last sample by itself. And an 8-PSK sample whose squares vanish:
/// it sets lock by itself.
pub fn cases<K: Costas>(recorder: &mut Recorder<K>) {
    for edge in edges() {
        let mut state = recorder.opened(on_the_axes(CostasConstellation::Bpsk));
        let (last, before) = edge.samples.split_last().expect("there are samples");
        for block in before.chunks(BLOCK) {
            recorder.even_run(&mut state, block);
        }
        recorder.even_run(&mut state, &[*last]);
        assert_eq!((state.level, state.locked), (edge.level, edge.locked));
    }
    let tiny = [0x1a5c_f657, 0x19fd_6d54].map(f32::from_bits);
    let mut state = recorder.opened(on_the_axes(CostasConstellation::Psk8));
    recorder.even_run(&mut state, &[C32::new(tiny[0], tiny[1])]);
    assert!(state.locked && state.level > 5.0);
}

/// Values with which the edges are met.
pub fn on_the_axes(points: CostasConstellation) -> Values {
    Values {
        points,
        bandwidth: 0.01,
        damping: 1.0,
        offset: 0.05,
    }
}
