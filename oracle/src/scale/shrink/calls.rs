//! Smaller calls: shorter inputs and buffers, plainer values.

use std::ops::Range;

use super::super::lanes::Kind;
use super::super::ops::{Op, Run};
use super::Shrinker;

/// Up to so many samples, every number of them is tried.
const FEW: usize = 64;

impl Shrinker<'_> {
    /// Takes samples and places off a call: many, then half as many and so on, then every number of few.
    pub fn shorten(&mut self, at: usize) {
        let parts = self.kind.parts();
        let Some(run) = self.run(at) else { return };
        let longest = run.input.len().max(run.strobes).max(run.places);
        let mut samples = longest / parts;
        while samples > 0 && !self.late() {
            let Some(run) = self.run(at) else { return };
            let mut shorter = cuts(run, samples * parts).into_iter();
            if !shorter.any(|run| self.replace(at, Op::Run(run))) {
                samples = if samples > FEW {
                    samples / 2
                } else {
                    samples - 1
                };
            }
        }
    }

    /// Takes pieces out of an input: large ones, then smaller ones.
    pub fn thin(&mut self, at: usize) {
        self.pieces(at, Self::without);
    }

    /// Puts zeros, then ones, in place of an input's values: in large pieces, then in smaller ones.
    pub fn plainer_input(&mut self, at: usize) {
        self.pieces(at, |shrinker, at, piece| shrinker.fill(at, piece, 0.0));
        self.pieces(at, |shrinker, at, piece| shrinker.fill(at, piece, 1.0));
    }

    /// Does something with each piece of an input, the pieces being half of it, a quarter and so on. It
    /// says whether the piece is gone.
    fn pieces(&mut self, at: usize, act: fn(&mut Self, usize, Range<usize>) -> bool) {
        let parts = self.kind.parts();
        let Some(run) = self.run(at) else { return };
        let mut count = run.input.len() / parts;
        let least = count / self.pieces;
        while count > least {
            let mut start = 0;
            while let Some(run) = self.run(at)
                && start < run.input.len()
                && !self.late()
            {
                let end = (start + count * parts).min(run.input.len());
                if !act(self, at, start..end) {
                    start = end;
                }
            }
            count /= 2;
        }
    }

    /// Leaves out a piece. A carrier's output must stay as long as the input.
    fn without(&mut self, at: usize, piece: Range<usize>) -> bool {
        let Some(run) = self.run(at) else {
            return false;
        };
        let mut places = run.places;
        if self.kind == Kind::Carrier {
            places = places.saturating_sub(piece.len());
        }
        let mut input = run.input.to_vec();
        input.drain(piece);
        let run = Run::new(input, run.strobes, places);
        self.replace(at, Op::Run(run))
    }

    /// Puts a value in place of those that are less plain. The piece stays.
    fn fill(&mut self, at: usize, piece: Range<usize>, value: f32) -> bool {
        let Some(run) = self.run(at) else {
            return false;
        };
        let plain = |x: &f32| x.to_bits() == 0 || x.to_bits() == value.to_bits();
        if !run.input[piece.clone()].iter().all(plain) {
            let mut input = run.input.to_vec();
            for part in input[piece].iter_mut().filter(|part| !plain(part)) {
                *part = value;
            }
            let run = Run::new(input, run.strobes, run.places);
            self.replace(at, Op::Run(run));
        }
        false
    }
}

/// The call with so many f32 taken off: of the input, at its end or its start, of the lent buffers, of
/// one of them, or of input and buffers. (A carrier's input and output must stay even, and so must a
/// receiver's strobe buffer and output.)
fn cuts(run: &Run, off: usize) -> Vec<Run> {
    let whole = &run.input[..];
    let kept = whole.len().checked_sub(off);
    let inputs = [
        kept.map(|kept| &whole[..kept]),
        kept.map(|_| &whole[off..]),
        Some(whole),
    ];
    let less = |count: usize| count.checked_sub(off);
    let (strobes, places) = (run.strobes, run.places);
    let buffers = [
        less(strobes).zip(less(places)),
        less(places).map(|places| (strobes, places)),
        less(strobes).map(|strobes| (strobes, places)),
        Some((strobes, places)),
    ];
    let mut list = Vec::new();
    for input in inputs.into_iter().flatten() {
        for (strobes, places) in buffers.into_iter().flatten() {
            list.push(Run::new(input.to_vec(), strobes, places));
        }
    }
    // The last one is the call itself.
    list.pop();
    list
}
