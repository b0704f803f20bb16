//! The signals of the rows. The recordings are made of these values, and so is the list of them.

use std::rc::Rc;

use crate::bits::Parts;
use crate::random::Random;
use crate::signal::Signal;

/// The recordings are the same every time.
const SEED: u64 = 1;

/// What the list's columns are.
const COLUMNS: &str = "\
| rows | points | samples for each | noise | carrier, turns |
|---|---|---|---|---|
";

/// The signal of some rows.
#[derive(Clone, Copy, PartialEq)]
pub struct Source {
    /// The rows, as the list names them.
    pub rows: &'static str,
    /// Points on the circle; with one the carrier is unmodulated.
    pub points: usize,
    /// Samples for each symbol that the table counts.
    pub pace: f64,
    /// A point stays for so many of those symbols. If that is one, the signal goes smoothly to the next.
    pub held: usize,
    /// The noise's spread in each part.
    pub noise: f64,
    /// The turns that the carrier begins at, and what it grows by at each of those symbols.
    pub carrier: Option<[f64; 2]>,
}

impl Source {
    /// Samples of the signal.
    pub fn recording<T: Parts>(self, samples: usize) -> Rc<[T]> {
        let mut random = Random::new(SEED);
        let mut signal = self.signal();
        let sample = |_| signal.sample(&mut random);
        (0..samples).map(sample).collect()
    }

    /// The signal from its start.
    fn signal(self) -> Signal {
        let signal = Signal::ordinary(self.points, self.each()).noisy(self.noise);
        let signal = match self.carrier {
            None => signal,
            Some([turn, turn_step]) => signal.carried(turn, turn_step / self.pace),
        };
        if self.held == 1 {
            signal
        } else {
            signal.held()
        }
    }

    /// Samples for each point.
    fn each(self) -> f64 {
        self.pace * self.held as f64
    }

    /// Whether it is another one's signal but for the points.
    fn like(self, other: &Self) -> bool {
        let points = self.points;
        self == Self { points, ..*other }
    }

    /// The list's columns behind the points.
    fn text(self) -> String {
        let held = if self.held == 1 { "" } else { ", held" };
        let carrier = match self.carrier {
            None => "none".to_string(),
            Some([turn, turn_step]) => format!("{turn} + {turn_step} a symbol"),
        };
        format!(" {}{held} | {} | {carrier} |", self.each(), self.noise)
    }
}

/// The list of some signals, in Markdown. Those that differ in their points alone stand in one line.
pub fn list(sources: &[Source]) -> String {
    let mut lines: Vec<(Source, Vec<String>)> = Vec::new();
    for source in sources {
        let points = source.points.to_string();
        match lines.iter_mut().find(|(first, _)| first.like(source)) {
            Some((_, all)) if all.contains(&points) => (),
            Some((_, all)) => all.push(points),
            None => lines.push((*source, vec![points])),
        }
    }
    let line = |(first, points): &(Source, Vec<String>)| {
        let (rows, points) = (first.rows, points.join(", "));
        format!("| {rows} | {points} |{}\n", first.text())
    };
    COLUMNS.to_string() + &lines.iter().map(line).collect::<String>()
}

#[cfg(test)]
mod tests {
    use super::*;
    use crate::types::C32;

    /// Without noise, on no carrier.
    const PLAIN: Source = Source {
        rows: "plain",
        points: 4,
        pace: 1.0,
        held: 8,
        noise: 0.0,
        carrier: None,
    };

    #[test]
    fn a_held_point_stays() {
        let recorded: Rc<[f32]> = PLAIN.recording(800);
        for (place, pair) in recorded.windows(2).enumerate() {
            let last = (place + 2).is_multiple_of(PLAIN.held);
            assert!(last || pair[0] == pair[1], "{place}");
        }
        assert!(recorded.iter().any(|&sample| sample < 0.0));
    }

    #[test]
    fn one_point_is_an_unmodulated_carrier() {
        let one = Source {
            points: 1,
            held: 1,
            carrier: Some([0.0, 0.25]),
            ..PLAIN
        };
        let recorded: Rc<[C32]> = one.recording(400);
        for turn in recorded.chunks(4) {
            let parts = turn.iter().flat_map(|sample| sample.parts());
            let rounded: Vec<f32> = parts.map(f32::round).collect();
            assert_eq!(rounded, [0.0, 1.0, -1.0, 0.0, 0.0, -1.0, 1.0, 0.0]);
        }
    }

    #[test]
    fn signals_that_differ_in_their_points_share_a_line() {
        let two = Source { points: 2, ..PLAIN };
        let other = Source {
            rows: "other",
            held: 1,
            noise: 0.1,
            carrier: Some([0.5, 0.01]),
            ..PLAIN
        };
        let lines = "\
| plain | 2, 4 | 8, held | 0 | none |
| other | 4 | 1 | 0.1 | 0.5 + 0.01 a symbol |
";
        let told = list(&[two, two, PLAIN, other, PLAIN]);
        assert_eq!(told, format!("{COLUMNS}{lines}"));
    }
}
