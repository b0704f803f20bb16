//! Plays operations on all sides and lays what they show beside each other.

use std::hint::black_box;

use super::counts::Counts;
use super::lanes::Kind;
use super::machine::{Held, Side};
use super::ops::Op;
use super::original::{self, Source};
use super::ported;
use super::sheet::{Sheet, Slate};
use super::write::answer;
use crate::compare::tally::likeness;
use crate::fields::Value;
use crate::receiver_runs::receiver::NO_SYMBOL;
use crate::types::C32;
use crate::{Fallback, Reference};

/// The longest input of which it is looked at that nobody has written it, in f32.
const COPIED: usize = 4_096;

/// Where the library and one of the original's implementations differ.
#[derive(Clone, Debug)]
pub struct Difference {
    /// The implementation.
    pub with: &'static str,
    /// A field, a reading, an answer, or a place of a buffer.
    pub place: String,
    /// The library's value there, and the other's.
    pub values: [String; 2],
    /// The whole answers.
    pub answers: [String; 2],
}

/// A place that differs, with both values.
struct Spot {
    place: String,
    values: [String; 2],
}

impl Spot {
    fn new(place: String, values: [Value; 2]) -> Self {
        let values = values.map(Value::text);
        Self { place, values }
    }
}

/// A side and what it shows.
struct Player {
    name: &'static str,
    side: Box<dyn Side>,
    slate: Slate,
}

impl Player {
    fn new(name: &'static str, side: Box<dyn Side>) -> Self {
        let slate = Slate::default();
        Self { name, side, slate }
    }
}

/// The library against the original.
pub struct Match {
    kind: Kind,
    ours: Player,
    /// `Fallback`, and `Reference` if it is compared too.
    theirs: Vec<Player>,
}

/// The library's loop.
pub fn library(kind: Kind) -> Box<dyn Side> {
    match kind {
        Kind::Real => Box::new(Held::<ported::Real>::new()),
        Kind::Complex => Box::new(Held::<ported::Complex>::new()),
        Kind::Carrier => Box::new(Held::<ported::Carrier>::new()),
        Kind::Receiver => Box::new(Held::<ported::Receiver>::new()),
    }
}

/// The loop of one of the original's implementations.
fn source<K: Source + 'static>(kind: Kind) -> Box<dyn Side> {
    match kind {
        Kind::Real => Box::new(Held::<original::Timing<f32, K>>::new()),
        Kind::Complex => Box::new(Held::<original::Timing<C32, K>>::new()),
        Kind::Carrier => Box::new(Held::<original::Carrier<K>>::new()),
        Kind::Receiver => Box::new(Held::<original::Receiver<K>>::new()),
    }
}

impl Match {
    pub fn new(kind: Kind, ours: Box<dyn Side>, with_reference: bool) -> Self {
        let mut theirs = vec![Player::new("Fallback", source::<Fallback>(kind))];
        if with_reference {
            theirs.push(Player::new("Reference", source::<Reference>(kind)));
        }
        let ours = Player::new("ours", ours);
        Self { kind, ours, theirs }
    }

    /// What `Fallback` shows after the last operation.
    pub fn seen(&self) -> &Sheet {
        &self.theirs[0].slate.sheet
    }

    /// Plays an operation on all sides, and gives the first place where the library's slate differs.
    pub fn play(&mut self, op: &Op, counts: &mut Counts) -> Option<Difference> {
        let input = short_input(op).map(<[f32]>::to_vec);
        for player in self.theirs.iter_mut().chain([&mut self.ours]) {
            player.side.play(op, &mut player.slate);
        }
        counts.operation(self.kind, op, self.seen(), self.theirs.len() > 1);
        let ours = &self.ours.slate;
        for player in &self.theirs {
            let theirs = &player.slate;
            let spot = compare(ours, theirs, counts).or_else(|| {
                // The input, which nobody may write.
                let after = black_box(short_input(op)?);
                buffers("input", after, input.as_ref()?, counts)
            });
            if let Some(spot) = spot {
                return Some(Difference {
                    with: player.name,
                    place: spot.place,
                    values: spot.values,
                    answers: [answer(op, ours), answer(op, theirs)],
                });
            }
        }
        None
    }
}

/// The input of a call, if it is so short that a copy costs little.
fn short_input(op: &Op) -> Option<&[f32]> {
    match op {
        Op::Run(run) if run.input.len() <= COPIED => Some(&run.input),
        _ => None,
    }
}

/// Compares two slates: answers, fields and readings, then the buffers, then the symbol numbers.
fn compare(ours: &Slate, theirs: &Slate, counts: &mut Counts) -> Option<Spot> {
    sheets(&ours.sheet, &theirs.sheet, counts)
        .or_else(|| buffers("strobes", &ours.strobes, &theirs.strobes, counts))
        .or_else(|| buffers("output", &ours.output, &theirs.output, counts))
        .or_else(|| symbols(&ours.symbols, &theirs.symbols, counts))
}

fn sheets(ours: &Sheet, theirs: &Sheet, counts: &mut Counts) -> Option<Spot> {
    let (ours, theirs) = (ours.values(), theirs.values());
    counts.values += ours.len() as u64;
    for (&(name, a), &(_, b)) in ours.iter().zip(theirs) {
        if counts.differ(name, likeness(a, b)) {
            return Some(Spot::new(name.to_string(), [a, b]));
        }
    }
    counted("values shown", ours.len(), theirs.len())
}

/// Two counts that must be equal.
fn counted(place: &str, ours: usize, theirs: usize) -> Option<Spot> {
    let counts = [ours, theirs].map(Value::Count);
    (ours != theirs).then(|| Spot::new(place.to_string(), counts))
}

/// Every place of a buffer, in one sweep; only if some bits differ does it look closer.
fn buffers(name: &'static str, ours: &[f32], theirs: &[f32], counts: &mut Counts) -> Option<Spot> {
    counts.values += ours.len() as u64;
    let both = || ours.iter().zip(theirs);
    if both().all(|(a, b)| a.to_bits() == b.to_bits()) {
        return counted(name, ours.len(), theirs.len());
    }
    for (at, (&a, &b)) in both().enumerate() {
        let values = [a, b].map(Value::Single);
        if counts.differ(name, likeness(values[0], values[1])) {
            return Some(Spot::new(format!("{name}, f32 {at}"), values));
        }
    }
    None
}

fn symbols(ours: &[u64], theirs: &[u64], counts: &mut Counts) -> Option<Spot> {
    counts.values += ours.len() as u64;
    counts.read += theirs.len() as u64;
    counts.none += theirs.iter().filter(|number| **number == NO_SYMBOL).count() as u64;
    let at = ours.iter().zip(theirs).position(|(a, b)| a != b);
    let Some(at) = at else {
        return counted("symbol numbers", ours.len(), theirs.len());
    };
    let values = [ours[at], theirs[at]].map(|number| Value::Count(number as usize));
    Some(Spot::new(format!("symbol number {at}"), values))
}
