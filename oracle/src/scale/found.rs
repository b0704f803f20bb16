//! One session: played, replayed from its list of operations, and told if it differs.

use std::thread::panicking;
use std::time::{Duration, Instant};

use super::counts::Counts;
use super::judge::{Difference, Match};
use super::lanes::{Kind, Lane};
use super::machine::Side;
use super::ops::Op;
use super::session::Session;
use super::shrink::Shrinker;
use super::write;

/// How long a session that differs is shrunk.
const SHRINKING: Duration = Duration::from_secs(60);

/// Makes the side that is compared with the original: the library, but for tests.
pub type Ours = fn(Kind) -> Box<dyn Side>;

/// A session that differs, as the operations up to the one that does.
pub struct Found {
    pub lane: Lane,
    with_reference: bool,
    pub ops: Vec<Op>,
    pub difference: Difference,
}

/// Names the session if the program stops inside it.
struct Named {
    seed: u64,
    index: u64,
}

impl Drop for Named {
    fn drop(&mut self) {
        if panicking() {
            eprintln!("stopped in session {} of seed {}", self.index, self.seed);
        }
    }
}

/// Plays a session; gives it if it differs.
pub fn play(seed: u64, index: u64, ours: Ours, rows: &mut [Counts]) -> Option<Found> {
    let _named = Named { seed, index };
    let mut session = Session::new(seed, index);
    let (lane, with_reference) = (session.lane, session.with_reference);
    let mut game = Match::new(lane.kind, ours(lane.kind), with_reference);
    let counts = &mut rows[lane.row];
    counts.sessions += 1;
    let mut ops: Vec<Op> = Vec::new();
    while let Some(op) = session.next(ops.last(), game.seen()) {
        let difference = game.play(&op, counts);
        ops.push(op);
        if let Some(difference) = difference {
            return Some(Found {
                lane,
                with_reference,
                ops,
                difference,
            });
        }
    }
    None
}

impl Found {
    /// The same with a smaller list, and how often one was tried.
    pub fn shrunk(self, ours: Ours) -> (Self, usize) {
        let (lane, with_reference) = (self.lane, self.with_reference);
        let mut replay = |ops: &[Op]| {
            let mut game = Match::new(lane.kind, ours(lane.kind), with_reference);
            let mut counts = Counts::default();
            let mut played = ops.iter().enumerate();
            played.find_map(|(at, op)| Some((at, game.play(op, &mut counts)?)))
        };
        let deadline = Instant::now() + SHRINKING;
        let Found {
            ops, difference, ..
        } = self;
        let mut shrinker = Shrinker::new(lane.kind, ops, difference, &mut replay, deadline);
        shrinker.shrink();
        let Shrinker {
            ops,
            difference,
            tries,
            ..
        } = shrinker;
        let found = Self {
            lane,
            with_reference,
            ops,
            difference,
        };
        (found, tries)
    }

    /// The operations as lines, and what differs after the last of them.
    pub fn text(&self) -> String {
        let Difference {
            with,
            place,
            values: [ours, theirs],
            answers: [our_answer, their_answer],
        } = &self.difference;
        write::lines(self.lane.kind, &self.ops)
            + &format!(
                "# ours answers: {our_answer}\n\
                 # {with} answers: {their_answer}\n\
                 # {place}: ours {ours}, {with} {theirs}\n"
            )
    }
}
