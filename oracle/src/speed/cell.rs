//! One cell of a table: the runs of one loop on one signal, and the fastest of them.

use super::drive::Round;

/// Makes one run of each implementation.
pub type Run = Box<dyn Fn() -> Round>;

/// A loop, with the fastest run of each implementation so far.
pub struct Cell {
    run: Run,
    best: [f64; 2],
    same: bool,
}

impl Cell {
    /// No runs yet.
    pub fn new(run: Run) -> Self {
        Self {
            run,
            best: [f64::INFINITY; 2],
            same: true,
        }
    }

    /// Makes one run more.
    pub fn round(&mut self) {
        let Round { ns, same } = (self.run)();
        self.best = [self.best[0].min(ns[0]), self.best[1].min(ns[1])];
        self.same &= same;
    }

    /// Whether both came out the same in every run.
    pub fn same(&self) -> bool {
        self.same
    }

    /// The two times, with so many decimals.
    pub fn times(&self, decimals: usize) -> String {
        let [original, ported] = self.best;
        format!(" {original:.decimals$} | {ported:.decimals$} |")
    }

    /// The two times, and the ratio of the ported one to the original.
    pub fn columns(&self, decimals: usize) -> String {
        let [original, ported] = self.best;
        let times = self.times(decimals);
        format!("{times} {:.2} |", ported / original)
    }
}
