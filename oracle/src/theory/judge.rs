//! Compares received symbols with what was sent.

use super::drive::Strobe;
use super::wave::Wave;
use crate::kernels::costas::CostasConstellation;
use crate::receiver_runs::receiver::symbol_number;
use crate::types::C32;

/// Symbols at the beginning that do not count: the loops find their places there.
pub const SKIPPED: usize = 2_000;
/// The symbols of a segment, which may be turned as a whole.
const SEGMENT: usize = 500;
/// A strobe so far from the instant that was due, in symbols, belongs to another one.
const SLIPPED: f64 = 0.75;

/// What came out.
#[derive(Clone, Copy, Debug, PartialEq)]
pub struct Tally {
    /// Wrong symbols, in per cent.
    pub wrong: f64,
    /// Symbols that were left out or taken twice.
    pub slips: usize,
}

/// A strobe stands for the symbol whose instant is nearest. In each segment the turn of the
/// constellation counts that makes most symbols right.
pub fn judge(
    wave: &Wave,
    constellation: CostasConstellation,
    count: usize,
    strobes: &[Strobe],
    outputs: &[C32],
) -> Tally {
    let times: Vec<f64> = strobes
        .iter()
        .map(|strobe| wave.time(strobe.place))
        .collect();
    let (times, outputs) = (&times[SKIPPED..], &outputs[SKIPPED..]);
    let mut right = 0;
    for (times, outputs) in times.chunks(SEGMENT).zip(outputs.chunks(SEGMENT)) {
        let mut turns = vec![0; count];
        for (time, output) in times.iter().zip(outputs) {
            let sent = wave.numbers[time.round() as usize];
            if let Some(heard) = symbol_number(constellation, *output) {
                turns[(heard as usize + count - sent) % count] += 1;
            }
        }
        right += turns.into_iter().max().unwrap_or_default();
    }
    let wrong = 100.0 * (times.len() - right) as f64 / times.len() as f64;
    let slips = slips(times);
    Tally { wrong, slips }
}

/// How many symbols slip. A strobe is due a symbol after the last one; only when it is nearer to another
/// instant by far, the count goes on from there.
pub fn slips(times: &[f64]) -> usize {
    let mut due = times[0].round();
    let mut slips = 0;
    for time in times {
        let away = time - due;
        if away.abs() > SLIPPED {
            slips += away.round().abs() as usize;
            due += away.round();
        }
        due += 1.0;
    }
    slips
}

#[cfg(test)]
mod tests {
    use super::*;

    #[test]
    fn a_strobe_that_wavers_at_the_half_does_not_slip() {
        let wavering: Vec<f64> = (0..100)
            .map(|k| f64::from(k) + 0.4 + 0.2 * f64::from(k % 2))
            .collect();
        assert_eq!(slips(&wavering), 0);
    }

    #[test]
    fn a_strobe_that_moves_on_by_three_symbols_slips_three() {
        let moving: Vec<f64> = (0..1_000).map(|k| 1.003 * f64::from(k)).collect();
        assert_eq!(slips(&moving), 3);
        let back: Vec<f64> = (0..1_000).map(|k| 0.997 * f64::from(k)).collect();
        assert_eq!(slips(&back), 3);
    }
}
