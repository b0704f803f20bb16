//! From which symbol on a recording is received as it was sent.

use super::drive::Strobe;
use super::wave::Wave;
use crate::kernels::costas::CostasConstellation;
use crate::receiver_runs::receiver::symbol_number;
use crate::types::C32;

/// The points of QPSK.
const POINTS: usize = 4;

/// A symbol as it was received.
#[derive(Clone, Copy, Debug, PartialEq)]
pub struct Heard {
    /// The symbol that was sent at the nearest instant.
    pub sent: usize,
    /// By how many quarters it is turned. None if it reads none.
    pub turn: Option<usize>,
}

/// What QPSK was heard as.
pub fn heard(wave: &Wave, strobes: &[Strobe], outputs: &[C32]) -> Vec<Heard> {
    let one = |(strobe, output): (&Strobe, &C32)| {
        let sent = wave.time(strobe.place).round() as usize;
        let number = symbol_number(CostasConstellation::Qpsk, *output);
        let turn = number.map(|number| (number as usize + POINTS - wave.numbers[sent]) % POINTS);
        Heard { sent, turn }
    };
    strobes.iter().zip(outputs).map(one).collect()
}

/// How many symbols there are before those that are all right: turned as most of the last ones are, each
/// one sent next to the one before it. None if a mistake is among the last ones, which are so many.
pub fn settled(heard: &[Heard], last: usize) -> Option<usize> {
    let late = heard.len() - last;
    let turn = usual_turn(&heard[late..]);
    let goes_on = |at: usize| {
        let next = heard.get(at + 1);
        heard[at].turn == Some(turn) && next.is_none_or(|next| next.sent == heard[at].sent + 1)
    };
    let mistake = (0..heard.len()).rposition(|at| !goes_on(at));
    let first = mistake.map_or(0, |at| at + 1);
    (first <= late).then_some(first)
}

/// The turn that most symbols have.
fn usual_turn(heard: &[Heard]) -> usize {
    let with = |turn: usize| {
        heard
            .iter()
            .filter(|heard| heard.turn == Some(turn))
            .count()
    };
    let most = (0..POINTS).max_by_key(|turn| with(*turn));
    most.unwrap_or_default()
}

#[cfg(test)]
mod tests {
    use super::*;

    /// Ten symbols from one on, all of them turned once.
    fn ten() -> Vec<Heard> {
        let turn = Some(1);
        (7..17).map(|sent| Heard { sent, turn }).collect()
    }

    #[test]
    fn a_recording_without_a_mistake_is_settled_at_once() {
        assert_eq!(settled(&ten(), 4), Some(0));
    }

    #[test]
    fn the_symbols_behind_the_last_wrong_one_count() {
        let mut heard = ten();
        heard[1].turn = Some(3);
        heard[3].turn = None;
        assert_eq!(settled(&heard, 4), Some(4));
        assert_eq!(settled(&heard, 7), None);
    }

    /// Every symbol is right by itself.
    #[test]
    fn a_symbol_that_is_left_out_or_taken_twice_is_a_mistake() {
        for sent in [10, 12] {
            let mut heard = ten();
            for (on, one) in heard[4..].iter_mut().enumerate() {
                one.sent = sent + on;
            }
            assert_eq!(settled(&heard, 4), Some(4));
            assert_eq!(settled(&heard, 7), None);
        }
    }
}
