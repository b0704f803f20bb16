//! Makes a session that differs smaller, as long as it still differs.

mod calls;
mod settings;

use std::time::Instant;

use super::judge::Difference;
use super::lanes::Kind;
use super::ops::{Op, Run};

/// At first an input is cut into so many pieces at most; in each later round that helps nothing, into so
/// many times more.
const PIECES: usize = 16;

/// Plays a list from nothing; gives the operation that differs, and how.
pub type Replay<'a> = dyn FnMut(&[Op]) -> Option<(usize, Difference)> + 'a;

/// The smallest list so far, and what differs at its end.
pub struct Shrinker<'a> {
    kind: Kind,
    replay: &'a mut Replay<'a>,
    /// After this nothing is tried any more.
    deadline: Instant,
    pub ops: Vec<Op>,
    pub difference: Difference,
    /// How often a list was replayed, and how often it still differed.
    pub tries: usize,
    hits: usize,
    /// The pieces that an input is cut into.
    pieces: usize,
}

impl<'a> Shrinker<'a> {
    /// Begins with a list that differs at its end.
    pub fn new(
        kind: Kind,
        ops: Vec<Op>,
        difference: Difference,
        replay: &'a mut Replay<'a>,
        deadline: Instant,
    ) -> Self {
        Self {
            kind,
            replay,
            deadline,
            ops,
            difference,
            tries: 0,
            hits: 0,
            pieces: PIECES,
        }
    }

    /// Shrinks until nothing helps.
    pub fn shrink(&mut self) {
        while !self.late() {
            let before = self.hits;
            self.drop_operations();
            self.each(Self::join);
            self.each(Self::shorten);
            self.each(Self::plainer_input);
            self.each(Self::thin);
            self.each(Self::plainer_setting);
            if self.hits == before {
                let longest = (0..self.ops.len()).filter_map(|at| Some(self.run(at)?.input.len()));
                if longest.max().unwrap_or(0) <= self.pieces {
                    return;
                }
                self.pieces *= PIECES;
            }
        }
    }

    fn late(&self) -> bool {
        Instant::now() > self.deadline
    }

    /// Takes the list if it differs too, up to where it does.
    fn attempt(&mut self, mut ops: Vec<Op>) -> bool {
        if self.late() {
            return false;
        }
        self.tries += 1;
        let Some((at, difference)) = (self.replay)(&ops) else {
            return false;
        };
        ops.truncate(at + 1);
        self.ops = ops;
        self.difference = difference;
        self.hits += 1;
        true
    }

    /// Tries another operation in the place of one.
    fn replace(&mut self, at: usize, op: Op) -> bool {
        let mut ops = self.ops.clone();
        ops[at] = op;
        self.attempt(ops)
    }

    /// Does something at each operation that is left.
    fn each(&mut self, act: fn(&mut Self, usize)) {
        let mut at = 0;
        while at < self.ops.len() {
            act(self, at);
            at += 1;
        }
    }

    /// The call at a place of the list.
    fn run(&self, at: usize) -> Option<&Run> {
        match self.ops.get(at) {
            Some(Op::Run(run)) => Some(run),
            _ => None,
        }
    }

    /// Leaves out half of the operations, a quarter, and so on, down to single ones.
    fn drop_operations(&mut self) {
        let mut count = self.ops.len();
        while count > 0 {
            let mut start = 0;
            while start < self.ops.len() {
                let mut ops = self.ops.clone();
                ops.drain(start..(start + count).min(ops.len()));
                if !self.attempt(ops) {
                    start += count;
                }
            }
            count /= 2;
        }
    }

    /// Makes one call of a call and the next, as long as there are two.
    fn join(&mut self, at: usize) {
        while let (Some(first), Some(second)) = (self.run(at), self.run(at + 1)) {
            let run = Run::new(
                [&first.input[..], &second.input[..]].concat(),
                first.strobes + second.strobes,
                first.places + second.places,
            );
            let mut ops = self.ops.clone();
            ops.splice(at..at + 2, [Op::Run(run)]);
            if !self.attempt(ops) {
                return;
            }
        }
    }
}
